//! A job file in parts, so that a test can set each of them by itself.

use super::{list_of, narrow, widths_of};
use bore::Filter;

/// The paper's example, which prints `3 1 4` and `4 8 4`.
pub const EXAMPLE: [u8; 14] = [
    0x42, 0x4F, 0x52, 0x01, 0x00, 0x02, 0x00, 0x02, 0x02, 0x01, 0x00, 0x01, 0x00, 0x04,
];

/// What stands in a job file, in its order; of each pair the rows or the width
/// come first. Nothing has to fit together.
#[derive(Clone, Debug)]
pub struct Parts {
    pub mark: [u8; 3],
    pub version: u16,
    pub counts: [u8; 2],
    pub lists: [Vec<u8>; 2],
    pub sides: [u16; 2],
    pub pixels: Vec<u64>,
}

impl Parts {
    /// A job with the right mark, version and counts, and these pixels.
    pub fn new(rows: &[u8], columns: &[u8], sides: [u16; 2], pixels: Vec<u64>) -> Parts {
        let lists = [rows.to_vec(), columns.to_vec()];
        let count = |list: &Vec<u8>| u8::try_from(list.len()).expect("a count is a byte");
        Parts {
            mark: *b"BOR",
            version: 1,
            counts: [count(&lists[0]), count(&lists[1])],
            lists,
            sides,
            pixels,
        }
    }

    /// Such a job with as many pixels of one grey as the sides say.
    pub fn grey(rows: &[u8], columns: &[u8], sides: [u16; 2], grey: u64) -> Parts {
        let size = sides.map(usize::from).iter().product();
        Parts::new(rows, columns, sides, vec![grey; size])
    }

    /// Such a job with the lists of a filter; past its 48 widths a longer list
    /// has ones.
    pub fn of_filter(filter: &Filter, sides: [u16; 2], pixels: Vec<u64>) -> Parts {
        let [rows, columns] = [&filter.rows, &filter.columns].map(|cascade| {
            let mut list = widths_of(&list_of(cascade));
            if let Some(rest) = list.get_mut(48..) {
                rest.fill(1);
            }
            list
        });
        Parts::new(&rows, &columns, sides, pixels)
    }

    /// Where the sides end and the pixels begin.
    pub fn offset(&self) -> usize {
        11 + self.lists[0].len() + self.lists[1].len()
    }

    pub fn bytes(&self) -> Vec<u8> {
        let mut bytes = self.mark.to_vec();
        bytes.extend(self.version.to_le_bytes());
        bytes.extend(self.counts);
        for list in &self.lists {
            bytes.extend(list);
        }
        for side in self.sides {
            bytes.extend(side.to_le_bytes());
        }
        bytes.extend(narrow::<_, u8>(&self.pixels));
        bytes
    }
}
