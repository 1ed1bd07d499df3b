//! Grey pictures in PGM files, plain (P2) or binary (P5), with a largest grey up to 255. The greys are
//! taken as they stand.

/// A picture with all pixels that its file has, which need not be as many as the sides say.
pub struct Pgm {
    pub width: usize,
    pub height: usize,
    pub pixels: Vec<u8>,
}

/// The next word, and what comes after it. White space and comments are left out.
fn word(mut bytes: &[u8]) -> Option<(&str, &[u8])> {
    loop {
        bytes = bytes.trim_ascii_start();
        match bytes {
            [b'#', ..] => {
                let end = bytes.iter().position(|&byte| byte == b'\n');
                bytes = &bytes[end.unwrap_or(bytes.len())..];
            }
            _ => break,
        }
    }
    let outside = |byte: &u8| byte.is_ascii_whitespace() || *byte == b'#';
    let end = bytes.iter().position(outside).unwrap_or(bytes.len());
    let (word, rest) = bytes.split_at(end);
    let word = std::str::from_utf8(word).ok()?;
    (end > 0).then_some((word, rest))
}

/// The greys of a plain picture, one word each.
fn plain(mut rest: &[u8]) -> Option<Vec<u8>> {
    let mut pixels = Vec::new();
    while let Some((grey, after)) = word(rest) {
        pixels.push(grey.parse().ok()?);
        rest = after;
    }
    Some(pixels)
}

/// The picture of a file, if it is one with these greys.
pub fn read(bytes: &[u8]) -> Option<Pgm> {
    let (kind, rest) = word(bytes)?;
    let (width, rest) = word(rest)?;
    let (height, rest) = word(rest)?;
    let (largest, rest) = word(rest)?;
    let largest: u8 = largest.parse().ok()?;
    let pixels = match (kind, rest) {
        ("P2", _) => plain(rest)?,
        // One byte of white space comes before the pixels.
        ("P5", [space, pixels @ ..]) if space.is_ascii_whitespace() => pixels.to_vec(),
        _ => return None,
    };
    let fits = pixels.iter().all(|&grey| grey <= largest);
    fits.then_some(Pgm {
        width: width.parse().ok()?,
        height: height.parse().ok()?,
        pixels,
    })
}
