//! What the wrapper does by itself: a list made of widths, the widths of a list,
//! the ladder by its axes, and the words of the refusal numbers.

use bore::{ladder, refusal_text, Axes, Cascade, Filter};

/// Widths of which none is 0 and neighbours differ.
fn widths(count: usize) -> Vec<u8> {
    (0..count).map(|k| (k % 251 + 1) as u8).collect()
}

#[test]
fn lists_of_at_most_48_widths() {
    for count in [0, 1, 2, 47, 48] {
        let list = widths(count);
        let cascade = Cascade::try_from(&list[..]).expect("the list is short enough");
        assert_eq!(usize::from(cascade.count), count);
        assert_eq!(cascade.widths[..count], list);
        assert_eq!(cascade.widths[count..], vec![0; 48 - count]);
        assert_eq!(cascade.as_slice(), list);
    }
}

/// 256 and 304 are 0 and 48 modulo 256.
#[test]
fn longer_lists_are_refused_by_1() {
    for count in [49, 50, 255, 256, 257, 304, 1000, 65_536] {
        let number = Cascade::try_from(&widths(count)[..]).err();
        assert_eq!(number, Some(1), "{count} widths");
    }
}

/// The widths are taken as they stand: a width 0 is left to the calls.
#[test]
fn any_widths_are_taken() {
    let list: &[u8] = &[0, 255, 0];
    let cascade = Cascade::try_from(list).expect("the list is short enough");
    assert_eq!(cascade.as_slice(), list);
}

/// Bytes past the count are not of the list.
#[test]
fn the_widths_up_to_the_count() {
    let all = widths(48);
    for count in 0..=255 {
        let mut cascade = Cascade::try_from(&all[..]).expect("the list is short enough");
        cascade.count = count;
        let expected = match count {
            0..=48 => &all[..count.into()],
            _ => &all,
        };
        assert_eq!(cascade.as_slice(), expected, "count {count}");
    }
}

/// The calls refuse a count above 48 by the number that stands for such a list.
#[test]
fn a_count_above_48_is_refused_by_1() {
    for count in [49, 255] {
        let mut list = Cascade::try_from(&[1; 48][..]).expect("the list is short enough");
        let empty = Cascade::try_from(&[][..]).expect("the list is short enough");
        list.count = count;
        for (rows, columns) in [(list, empty), (empty, list), (list, list)] {
            assert_eq!(bore::check(&Filter { rows, columns }), 1, "count {count}");
        }
        assert_eq!(bore::kernel(&list, &mut [0]), 1, "count {count}");
    }
}

/// On one pixel, level 1 grows to 7 sums along the rows and to 7 by 7 on both
/// axes, and level 6 is refused by 4 on both axes only.
#[test]
fn the_ladder_goes_by_its_axes() {
    for (axes, level, size, number) in [
        (Axes::Rows, 1, 7, 0),
        (Axes::Rows, 1, 49, 7),
        (Axes::Rows, 6, 68, 0),
        (Axes::Both, 1, 49, 0),
        (Axes::Both, 1, 7, 7),
        (Axes::Both, 6, 68, 4),
    ] {
        let [mut out, mut cells] = [vec![0; size], vec![0; size]];
        let found = ladder(level, axes, 1, 1, &[1], &mut out, &mut cells);
        assert_eq!(found, number, "{axes:?}, level {level}, output of {size}");
    }
}

/// Numbers up to 16 have words of their own, all others the same.
#[test]
fn every_number_has_words() {
    let texts: Vec<&str> = (0..=255).map(refusal_text).collect();
    let (own, others) = texts.split_at(17);
    assert_eq!(own[0], "accepted");
    for (number, text) in own.iter().enumerate() {
        assert!(!text.is_empty(), "{number}");
        assert!(!own[..number].contains(text), "{number}: {text}");
        assert!(!others.contains(text), "{number}: {text}");
    }
    assert_eq!(others, ["no number of this library"; 239]);
}
