//! A small seeded random generator, and makers of random recipes, pictures and
//! jobs: valid ones, and ones at or beyond the limits of the paper. The same
//! seed always gives the same values.

use crate::job::{job_length, write_job};
use crate::picture::LARGEST_GREY;
use crate::recipe::{check, reach, BoxFilter, Recipe};

/// Widths whose product is 2^44 + 11,952. All of them have a reach of 238
/// together, so they may be shared between the lists in any way.
const ABOVE: [u8; 14] = [2, 2, 2, 2, 7, 7, 7, 11, 11, 17, 17, 29, 29, 109];

/// Widths whose product is 2^44 - 256. All but the last have a reach of 162
/// together.
const BELOW: [u8; 18] = [2, 2, 2, 2, 2, 2, 2, 2, 3, 3, 3, 5, 7, 13, 19, 37, 73, 109];

/// The splitmix64 generator.
#[derive(Clone, Debug)]
pub struct Random {
    state: u64,
}

impl Random {
    pub fn new(seed: u64) -> Random {
        Random { state: seed }
    }

    /// The next 64 random bits.
    pub fn word(&mut self) -> u64 {
        self.state = self.state.wrapping_add(0x9E37_79B9_7F4A_7C15);
        let mut z = self.state;
        z = (z ^ (z >> 30)).wrapping_mul(0xBF58_476D_1CE4_E5B9);
        z = (z ^ (z >> 27)).wrapping_mul(0x94D0_49BB_1331_11EB);
        z ^ (z >> 31)
    }

    /// A number from `low` to `high`, both included.
    pub fn between(&mut self, low: usize, high: usize) -> usize {
        let choices = (high - low) as u64 + 1;
        low + (self.word() % choices) as usize
    }

    /// True as often as false.
    pub fn coin(&mut self) -> bool {
        self.word() >> 63 == 1
    }

    /// One of the given values.
    pub fn one_of<T: Copy>(&mut self, values: &[T]) -> T {
        values[self.between(0, values.len() - 1)]
    }

    fn shuffle(&mut self, list: &mut [u8]) {
        for last in (1..list.len()).rev() {
            let other = self.between(0, last);
            list.swap(last, other);
        }
    }

    /// Puts the widths `list` on one axis and `other` on the other, by chance.
    fn on_some_axis(&mut self, list: &[u8], other: &[u8]) -> Recipe {
        if self.coin() {
            Recipe::new(list, other)
        } else {
            Recipe::new(other, list)
        }
    }

    /// Shares widths between the two lists by chance, in random order.
    fn shared(&mut self, widths: &[u8]) -> Recipe {
        let mut widths = widths.to_vec();
        self.shuffle(&mut widths);
        let (mut rows, mut columns) = (Vec::new(), Vec::new());
        for n in widths {
            if self.coin() {
                rows.push(n);
            } else {
                columns.push(n);
            }
        }
        Recipe::new(&rows, &columns)
    }

    /// Any grey.
    pub fn grey(&mut self) -> u64 {
        self.word() % (LARGEST_GREY + 1)
    }

    /// Pixels, one in four of them black or white.
    pub fn pixels(&mut self, count: usize) -> Vec<u64> {
        let mut pixels = Vec::new();
        for _ in 0..count {
            let any = self.grey();
            pixels.push(self.one_of(&[0, LARGEST_GREY, any, any, any, any, any, any]));
        }
        pixels
    }
}

/// Recipes.
impl Random {
    /// An accepted recipe with a reach of at most `most_reach` on each axis.
    pub fn valid_recipe(&mut self, most_reach: usize) -> Recipe {
        let mut recipe = Recipe::default();
        let tries = self.one_of(&[0, 1, 2, 3, 4, 6, 10, 90]);
        let widest = self.one_of(&[1, 2, 3, 4, 8, 20, 255]);
        for _ in 0..tries {
            let mut longer = recipe.clone();
            let on_rows = self.coin();
            let n = self.between(1, widest) as u8;
            let list = if on_rows {
                &mut longer.rows
            } else {
                &mut longer.columns
            };
            list.push(BoxFilter::of_width(n));
            if reach(list) <= most_reach && check(&longer).is_ok() {
                recipe = longer;
            }
        }
        recipe
    }

    /// A recipe with exactly `length` widths on one axis, all of them small and
    /// at most 12 of them above 1. It is refused 1 for a length above 48 and
    /// accepted otherwise.
    pub fn recipe_of_length(&mut self, length: usize) -> Recipe {
        let mut list = vec![1; length];
        for n in list.iter_mut().take(12) {
            *n = self.between(1, 4) as u8;
        }
        self.shuffle(&mut list);
        let mut other = Vec::new();
        for _ in 0..self.between(0, 5) {
            other.push(self.between(1, 4) as u8);
        }
        self.on_some_axis(&list, &other)
    }

    /// A recipe that is refused 2: a width 0 stands somewhere in it.
    pub fn recipe_with_zero(&mut self) -> Recipe {
        let mut list = Vec::new();
        for _ in 0..self.between(0, 47) {
            list.push(self.one_of(&[1, 2, 3, 200]));
        }
        let at = self.between(0, list.len());
        list.insert(at, 0);
        let mut other = Vec::new();
        for _ in 0..self.between(0, 3) {
            other.push(self.one_of(&[1, 2, 3, 200]));
        }
        self.on_some_axis(&list, &other)
    }

    /// A recipe with exactly this reach, 1 to 508, on one axis and a small one
    /// on the other. It is refused 3 for a reach above 255, else accepted.
    pub fn recipe_of_reach(&mut self, wanted: usize) -> Recipe {
        let mut list = Vec::new();
        let mut rest = wanted;
        for _ in 0..2 {
            let part = self.between(0, rest.min(254) / 2);
            list.push((part + 1) as u8);
            rest -= part;
        }
        while rest > 0 {
            let part = rest.min(254);
            list.push((part + 1) as u8);
            rest -= part;
        }
        self.shuffle(&mut list);
        let other = self.between(1, 3) as u8;
        self.on_some_axis(&list, &[other])
    }

    /// An accepted recipe whose weight is exactly 2^44.
    pub fn recipe_of_full_weight(&mut self) -> Recipe {
        let mut widths = Vec::new();
        let mut doublings = 44;
        while doublings > 0 {
            let some = self.between(1, 4).min(doublings);
            widths.push(1 << some);
            doublings -= some;
        }
        self.shared(&widths)
    }

    /// An accepted recipe whose weight is 2^44 - 256.
    pub fn recipe_just_below(&mut self) -> Recipe {
        let (last, others) = BELOW.split_last().expect("the list is not empty");
        let mut others = others.to_vec();
        self.shuffle(&mut others);
        self.on_some_axis(&others, &[*last])
    }

    /// A recipe that is refused 4: its weight is 2^44 + 11,952.
    pub fn recipe_just_above(&mut self) -> Recipe {
        self.shared(&ABOVE)
    }

    /// A recipe at or just beyond one of the limits.
    pub fn damaged_recipe(&mut self) -> Recipe {
        match self.between(0, 5) {
            0 => {
                let length = self.one_of(&[0, 1, 48, 49, 255]);
                self.recipe_of_length(length)
            }
            1 => self.recipe_with_zero(),
            2 => {
                let wanted = self.one_of(&[255, 256]);
                self.recipe_of_reach(wanted)
            }
            3 => self.recipe_of_full_weight(),
            4 => self.recipe_just_below(),
            _ => self.recipe_just_above(),
        }
    }
}

/// Jobs.
impl Random {
    /// An accepted job whose picture has sides of at most `most_side` and whose
    /// recipe has reaches of at most `most_reach`.
    pub fn job(&mut self, most_side: usize, most_reach: usize) -> Vec<u8> {
        let recipe = self.valid_recipe(most_reach);
        let w = self.between(1, most_side);
        let h = self.between(1, most_side);
        let pixels = self.pixels(w * h);
        let length = job_length(&recipe, w, h).expect("the recipe and the sides are accepted");
        write_job(&recipe, w, h, &pixels, length).expect("the job is accepted")
    }

    /// A job with one damage: a changed byte near its front, a lost end, or a
    /// byte too many. A changed byte may leave the job in order.
    pub fn damaged_job(&mut self, most_side: usize, most_reach: usize) -> Vec<u8> {
        let mut job = self.job(most_side, most_reach);
        match self.between(0, 2) {
            0 => {
                let at = self.between(0, job.len().min(24) - 1);
                let any = self.word() as u8;
                job[at] = self.one_of(&[0, 1, 49, 255, any]);
            }
            1 => {
                let length = self.between(0, job.len() - 1);
                job.truncate(length);
            }
            _ => job.push(self.word() as u8),
        }
        job
    }
}
