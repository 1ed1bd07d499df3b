//! What the comparison tests share: the change between the library's form of
//! filters and pixels and the reference's, many random filters near all limits, in
//! `pictures` random pictures, in `rims` those with much rim, in `sums` rows of
//! sums, in `pairs`, `near_misses` and `difference_pairs` pairs of recipes, in
//! `causes` refusals on purpose, in `guarded` memory between guard pages, and the
//! comparison of each call with the reference: in `agree` the calls on filters, in
//! `agree_methods` direct and pass by pass, in `agree_stream` the one pass, whose
//! work cells `cells` models, in `agree_ladder` the ladder, in `agree_greys`
//! rounding, blur, difference and readings, in `agree_jobs` the calls on job
//! files, which `job_parts` makes by parts and `any_jobs` at random. `accepted`
//! has calls that have to be accepted for tests of their answers alone, `three`
//! all three methods for tests of the sums alone, `values` gives all that a
//! filter, a state or a job holds, and `program` runs the program on an input.
//!
//! The environment sets the random cases: BORE_CASES is their number for each
//! test, BORE_SEED the seed of the first; each case has the next seed. A test
//! whose cases take longer makes a share of them, and at least one.

// Each test file uses a part of this one.
#![allow(dead_code)]

pub mod accepted;
pub mod agree;
pub mod agree_greys;
pub mod agree_jobs;
pub mod agree_ladder;
pub mod agree_methods;
pub mod agree_stream;
pub mod any_jobs;
pub mod causes;
pub mod cells;
pub mod difference_pairs;
pub mod guarded;
pub mod job_parts;
pub mod lent;
pub mod near_misses;
pub mod pairs;
pub mod pictures;
pub mod program;
pub mod rims;
pub mod sums;
pub mod three;
pub mod values;

use bore::{Cascade, Filter, State};
use reference::random::Random;
use reference::{boxes, BoxFilter, Recipe};

/// The random cases of each test when BORE_CASES is not set.
const CASES: u64 = 100_000;

/// A number set in the environment.
pub fn set_number(name: &str) -> Option<u64> {
    let text = std::env::var(name).ok()?;
    Some(text.parse().expect("the variable holds a whole number"))
}

/// The list that a cascade stands for. A list longer than 48 has widths of 0
/// past its 48th: the reference refuses it whatever they are.
pub fn list_of(cascade: &Cascade) -> Vec<BoxFilter> {
    let mut list = boxes(&cascade.widths);
    list.resize(usize::from(cascade.count), BoxFilter::of_width(0));
    list
}

/// The reference's form of a filter.
pub fn recipe_of(filter: &Filter) -> Recipe {
    Recipe {
        rows: list_of(&filter.rows),
        columns: list_of(&filter.columns),
    }
}

/// The widths of a list.
pub fn widths_of(list: &[BoxFilter]) -> Vec<u8> {
    list.iter().map(|one| one.width).collect()
}

/// Whether a list has a width of this kind.
pub fn some_width(list: &[BoxFilter], kind: impl Fn(usize) -> bool) -> bool {
    list.iter().any(|one| kind(one.width.into()))
}

/// A list in the library's form, zeros past its end.
pub fn cascade_of(list: &[BoxFilter]) -> Cascade {
    let mut widths = widths_of(list);
    widths.resize(48, 0);
    Cascade {
        count: u8::try_from(list.len()).expect("a count is a byte"),
        widths: widths.try_into().expect("there are 48 widths"),
    }
}

/// The library's form of a recipe, zeros past the ends of its lists.
pub fn filter_of(recipe: &Recipe) -> Filter {
    Filter {
        rows: cascade_of(&recipe.rows),
        columns: cascade_of(&recipe.columns),
    }
}

/// Numbers in the library's form: pixels and greys as bytes, differences as
/// signed 16 bits.
pub fn narrow<N: Copy, T: TryFrom<N>>(numbers: &[N]) -> Vec<T> {
    let one = |&number: &N| T::try_from(number).ok().expect("the number fits");
    numbers.iter().map(one).collect()
}

/// The filter of two lists of widths.
pub fn filter(rows: &[u8], columns: &[u8]) -> Filter {
    filter_of(&Recipe::new(rows, columns))
}

/// The filter of a list of widths on one axis, with none on the other.
pub fn on_axis(list: &[u8], on_rows: bool) -> Filter {
    match on_rows {
        true => filter(list, &[]),
        false => filter(&[], list),
    }
}

/// A filter, and a twin that differs from it only past the counts. Whatever is
/// asked about one has to be answered alike for the other.
#[derive(Debug)]
pub struct Case {
    /// The seed of a random case; 0 for a fixed one.
    pub seed: u64,
    pub filter: Filter,
    pub twin: Filter,
}

impl Case {
    /// A filter with a random twin.
    pub fn new(random: &mut Random, seed: u64, filter: Filter) -> Case {
        let twin = refilled(random, &filter);
        Case { seed, filter, twin }
    }

    /// The case of a seed with a filter drawn by `draw`, and its generator for
    /// further choices.
    pub fn drawn(seed: u64, draw: impl Fn(&mut Random) -> Filter) -> (Case, Random) {
        let mut random = Random::new(seed);
        let filter = draw(&mut random);
        (Case::new(&mut random, seed, filter), random)
    }

    /// The random case of a seed for a call on a filter.
    pub fn random(seed: u64) -> (Case, Random) {
        Case::drawn(seed, any_filter)
    }

    /// The case of a given filter.
    pub fn fixed(random: &mut Random, filter: Filter) -> Case {
        Case::new(random, 0, filter)
    }

    pub fn recipe(&self) -> Recipe {
        recipe_of(&self.filter)
    }

    /// The filter and its twin.
    pub fn both(&self) -> [&Filter; 2] {
        [&self.filter, &self.twin]
    }

    /// The cascade of the rows and its twin, then those of the columns.
    pub fn axes(&self) -> [[&Cascade; 2]; 2] {
        let [filter, twin] = self.both();
        [[&filter.rows, &twin.rows], [&filter.columns, &twin.columns]]
    }
}

/// Prints its seed if the case fails.
pub struct Seed(pub u64);

impl Drop for Seed {
    fn drop(&mut self) {
        if std::thread::panicking() {
            eprintln!("seed {}", self.0);
        }
    }
}

/// Runs a comparison on one seed for every `share` of the random cases.
pub fn each_seed(share: u64, mut compare: impl FnMut(u64)) {
    let first = set_number("BORE_SEED").unwrap_or(0);
    let cases = set_number("BORE_CASES").unwrap_or(CASES);
    for seed in (first..).take((cases / share).max(1) as usize) {
        let _shown = Seed(seed);
        compare(seed);
    }
}

/// Runs a comparison on every random case.
pub fn each_case(mut compare: impl FnMut(&Case, &mut Random)) {
    each_seed(1, |seed| {
        let (case, mut random) = Case::random(seed);
        compare(&case, &mut random);
    });
}

/// Adds one to each count whose condition is met.
pub fn count<const N: usize>(counts: &mut [usize; N], met: [bool; N]) {
    for (count, met) in counts.iter_mut().zip(met) {
        *count += usize::from(met);
    }
}

/// Whether just these numbers were met, each of them ten times or more.
pub fn meets(counts: &[usize], numbers: &[usize]) -> bool {
    let rightly = |(number, &count): (usize, &usize)| match numbers.contains(&number) {
        true => count >= 10,
        false => count == 0,
    };
    counts.iter().enumerate().all(rightly)
}

/// Fills what stands past the count: all bytes random, or all 0, or all 255.
fn refill(random: &mut Random, cascade: &mut Cascade) {
    let kind = random.between(0, 7);
    for n in cascade.widths.iter_mut().skip(usize::from(cascade.count)) {
        *n = match kind {
            0 => 0,
            1 => 255,
            _ => random.word() as u8,
        };
    }
}

pub fn refilled(random: &mut Random, filter: &Filter) -> Filter {
    let mut filter = *filter;
    refill(random, &mut filter.rows);
    refill(random, &mut filter.columns);
    filter
}

/// A filter that is valid, at a limit, or beyond one or several.
pub fn any_filter(random: &mut Random) -> Filter {
    let recipe = match random.between(0, 9) {
        0..=2 => random.valid_recipe(255),
        3..=5 => random.damaged_recipe(),
        6..=7 => heavy_recipe(random),
        _ => Recipe::new(&any_list(random), &any_list(random)),
    };
    let mut filter = refilled(random, &filter_of(&recipe));
    if random.between(0, 3) == 0 {
        damage(random, &mut filter);
    }
    filter
}

/// A state of random values, for a call that has to write all of it.
pub fn any_state(random: &mut Random) -> State {
    let mut cascade = || Cascade {
        count: random.word() as u8,
        widths: std::array::from_fn(|_| random.word() as u8),
    };
    State {
        filter: Filter {
            rows: cascade(),
            columns: cascade(),
        },
        width: random.word() as usize,
        height: random.word() as usize,
        emitted: random.word() as usize,
    }
}

/// Changes the count or a byte on one axis.
pub fn damage(random: &mut Random, filter: &mut Filter) {
    let cascade = if random.coin() {
        &mut filter.rows
    } else {
        &mut filter.columns
    };
    let any = random.word() as u8;
    if random.coin() {
        cascade.count = random.one_of(&[0, 1, 47, 48, 49, 50, 255, any]);
    } else {
        cascade.widths[random.between(0, 47)] = random.one_of(&[0, 1, 2, 255, any]);
    }
}

/// Changes one field of a state.
pub fn damage_state(random: &mut Random, state: &mut State) {
    let any = random.between(1, 60);
    let all = state
        .height
        .wrapping_add(reference::reach(&recipe_of(&state.filter).columns));
    match random.between(0, 4) {
        0 => damage(random, &mut state.filter),
        1 => {
            let refused = pictures::refused_side(random);
            state.width = random.one_of(&[refused, any, 1024]);
        }
        2 => {
            let refused = pictures::refused_side(random);
            state.height = random.one_of(&[refused, any, 1024]);
        }
        _ => {
            let word = random.word() as usize;
            let near = [state.height, all].map(|n| n.wrapping_add(random.between(0, 2)));
            let before = near.map(|n| n.wrapping_sub(1));
            state.emitted = random.one_of(&[before[0], before[1], before[1], word, usize::MAX]);
        }
    }
}

/// Widths whose product is 2^44 - 306,016.
pub const BELOW: [u8; 16] = [2, 2, 2, 2, 2, 3, 5, 5, 7, 13, 13, 13, 17, 23, 23, 53];

/// Widths whose product is 2^44 + 11,952.
pub const ABOVE: [u8; 14] = [2, 2, 2, 2, 7, 7, 7, 11, 11, 17, 17, 29, 29, 109];

/// Widths whose product is 10,593,851,408,384 and 66,301 times 2^64: taken
/// modulo 2^64 it would be accepted.
pub const WRAPPED: [u8; 24] = [
    2, 4, 4, 7, 8, 8, 9, 9, 9, 11, 11, 11, 11, 12, 12, 12, 13, 15, 15, 16, 17, 17, 18, 19,
];

/// Equal widths, a width and how often it comes: products about 2^44, of 2^64,
/// of 2^128 and above.
pub const EQUAL: [(u8, usize); 17] = [
    (2, 43),
    (2, 44),
    (2, 45),
    (4, 22),
    (4, 23),
    (16, 11),
    (16, 12),
    (2, 63),
    (2, 64),
    (2, 96),
    (4, 32),
    (16, 16),
    (4, 64),
    (16, 32),
    (3, 96),
    (4, 96),
    (6, 96),
];

/// Widths with a weight near 2^44 or one that passes 64 or 128 bits, in any
/// order, cut into two lists of at most 48.
fn heavy_recipe(random: &mut Random) -> Recipe {
    let widths = match random.between(0, 7) {
        0 => BELOW.to_vec(),
        1 => ABOVE.to_vec(),
        2 => WRAPPED.to_vec(),
        _ => {
            let (n, times) = random.one_of(&EQUAL);
            vec![n; times]
        }
    };
    let rows = shuffled(random, &widths);
    let fewest = rows.len().saturating_sub(48);
    let most = rows.len().min(48);
    let middle = rows.len() / 2;
    let any = random.between(fewest, most);
    let cut = random.one_of(&[fewest, most, middle, any]);
    Recipe::new(&rows[..cut], &rows[cut..])
}

pub fn shuffled<T: Copy>(random: &mut Random, list: &[T]) -> Vec<T> {
    let mut out = Vec::new();
    for &one in list {
        out.insert(random.between(0, out.len()), one);
    }
    out
}

/// Widths to draw lists from.
const DRAWN: [&[u8]; 11] = [
    &[1],
    &[2],
    &[1, 2],
    &[1, 2, 3],
    &[1, 1, 1, 1, 1, 1, 2, 4, 9],
    &[2, 4],
    &[4, 5, 6, 7],
    &[0, 1, 2],
    &[0],
    &[1, 1, 1, 255],
    &[254, 255],
];

/// One list alone, made without regard to the other axis.
fn any_list(random: &mut Random) -> Vec<u8> {
    let any = random.between(0, 60);
    match random.between(0, 3) {
        0 => {
            let wanted = random.one_of(&[254, 255, 256, 257]);
            let most = random.one_of(&[10, 40, 254]);
            list_of_reach(random, wanted, most)
        }
        1 => vec![random.word() as u8; any],
        _ => {
            let length = random.one_of(&[0, 1, 2, 3, 8, 47, 48, 49, 255, any]);
            let from = random.one_of(&DRAWN);
            (0..length).map(|_| random.one_of(from)).collect()
        }
    }
}

/// A list with exactly this reach, of widths up to `most` + 1.
pub fn list_of_reach(random: &mut Random, wanted: usize, most: usize) -> Vec<u8> {
    let mut list = Vec::new();
    let mut rest = wanted;
    while rest > 0 {
        let part = random.between(1, rest.min(most));
        list.push((part + 1) as u8);
        rest -= part;
    }
    list
}
