//! The job file (read, write, length) and the text that the program prints.

use crate::picture::{check_picture, exact_sums};
use crate::recipe::{accepted_weight, check_sides, grown_sides, needed_cells, Recipe, MOST_WIDTHS};

/// The most bytes that the program takes.
pub const PROGRAM_BYTES: usize = 65_536;
/// The work cells that the program has.
pub const PROGRAM_CELLS: usize = 8_192;

/// Mark and version 1, low byte first.
const HEAD: [u8; 5] = [0x42, 0x4F, 0x52, 1, 0];

/// What reading a job returns. The default has all fields zero, as they stand
/// beside a refusal.
#[derive(Clone, Debug, Default, PartialEq, Eq)]
pub struct Job {
    pub recipe: Recipe,
    pub w: usize,
    pub h: usize,
    /// Where the pixels begin.
    pub offset: usize,
}

fn low_byte_first(bytes: &[u8], at: usize) -> usize {
    usize::from(bytes[at]) + 256 * usize::from(bytes[at + 1])
}

/// Reads a job: 14 for under 7 bytes, mark or version; 1; 14 if lists and sides
/// are cut short; 2 to 5; 14 for any other total length.
pub fn read_job(bytes: &[u8]) -> Result<Job, u8> {
    if bytes.len() < 7 || bytes[..5] != HEAD {
        return Err(14);
    }
    let row_count = usize::from(bytes[5]);
    let column_count = usize::from(bytes[6]);
    if row_count > MOST_WIDTHS || column_count > MOST_WIDTHS {
        return Err(1);
    }
    let columns_at = 7 + row_count;
    let sides_at = columns_at + column_count;
    let offset = sides_at + 4;
    if bytes.len() < offset {
        return Err(14);
    }
    let recipe = Recipe::new(&bytes[7..columns_at], &bytes[columns_at..sides_at]);
    let w = low_byte_first(bytes, sides_at);
    let h = low_byte_first(bytes, sides_at + 2);
    check_sides(&recipe, w, h)?;
    if bytes.len() != offset + w * h {
        return Err(14);
    }
    Ok(Job {
        recipe,
        w,
        h,
        offset,
    })
}

/// The pixels in the bytes of a job from its offset on.
pub fn pixels_of(bytes: &[u8]) -> Vec<u64> {
    bytes.iter().map(|&byte| u64::from(byte)).collect()
}

/// The length of a job in bytes; refusals 1 to 5.
pub fn job_length(recipe: &Recipe, w: usize, h: usize) -> Result<usize, u8> {
    check_sides(recipe, w, h)?;
    Ok(7 + recipe.rows.len() + recipe.columns.len() + 4 + w * h)
}

/// The bytes of a job: refusals 1 to 7.
pub fn write_job(
    recipe: &Recipe,
    w: usize,
    h: usize,
    pixels: &[u64],
    out_len: usize,
) -> Result<Vec<u8>, u8> {
    check_picture(recipe, w, h, pixels.len())?;
    if out_len != job_length(recipe, w, h)? {
        return Err(7);
    }
    let mut job = HEAD.to_vec();
    job.push(recipe.rows.len() as u8);
    job.push(recipe.columns.len() as u8);
    for list in [&recipe.rows, &recipe.columns] {
        job.extend(list.iter().map(|one| one.width));
    }
    for side in [w, h] {
        job.push((side % 256) as u8);
        job.push((side / 256) as u8);
    }
    for &pixel in pixels {
        job.push(u8::try_from(pixel).expect("a pixel fits a byte"));
    }
    Ok(job)
}

/// The lines for an input that is not refused.
fn printed(input: &[u8]) -> Result<String, u8> {
    if input.len() > PROGRAM_BYTES {
        return Err(14);
    }
    let job = read_job(input)?;
    if needed_cells(&job.recipe, job.w)? > PROGRAM_CELLS {
        return Err(8);
    }
    let pixels = pixels_of(&input[job.offset..]);
    let sums = exact_sums(&job.recipe, job.w, job.h, &pixels)?;
    let (width, height) = grown_sides(&job.recipe, job.w, job.h)?;
    let weight = accepted_weight(&job.recipe);
    let mut text = format!("{width} {height} {weight}\n");
    for row in sums.chunks(width) {
        let numbers: Vec<String> = row.iter().map(u64::to_string).collect();
        text.push_str(&numbers.join(" "));
        text.push('\n');
    }
    Ok(text)
}

/// The text that the program prints for an input. Every line ends in a newline.
pub fn boresums(input: &[u8]) -> String {
    match printed(input) {
        Ok(text) => text,
        Err(number) => format!("refused {number}\n"),
    }
}
