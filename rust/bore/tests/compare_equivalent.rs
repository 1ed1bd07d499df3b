//! The comparing call beside the reference: on random pairs of filters, which
//! are equal, differ in one place, are unrelated or are refused, and on near
//! misses. BORE_CASES and BORE_SEED set the random cases as they do for the
//! calls on a filter.

mod common;

use common::agree::Answer;
use common::near_misses::{equal_powers, near_misses};
use common::pairs::{accepted_recipe, case_of, disguised, Maker, MAKERS};
use common::pairs::{added, changed, dropped, exchanged, joined, moved, other_ones, reordered};
use common::{agree, any_filter, damage, each_seed, filter_of, Case};
use reference::random::Random;
use reference::{boxes, BoxFilter, Recipe};

/// The call on two recipes.
fn compare(random: &mut Random, seed: u64, a: &Recipe, b: &Recipe) -> Answer {
    let a = case_of(random, seed, a);
    let b = case_of(random, seed, b);
    agree::equivalent(&a, &b, random)
}

/// A random recipe and a relative of it, which is half the time disguised.
fn relatives(random: &mut Random, maker: Maker) -> (Recipe, Recipe, bool) {
    let recipe = accepted_recipe(random);
    let (mut other, equal) = maker(random, &recipe);
    if random.coin() {
        other = disguised(random, &other);
    }
    (recipe, other, equal)
}

/// The call on a recipe and a relative of it. Where both are accepted, the
/// maker of the relative knows the answer too.
fn related(seed: u64, maker: Maker) -> Answer {
    let mut random = Random::new(seed);
    let (recipe, other, equal) = relatives(&mut random, maker);
    let answer = compare(&mut random, seed, &recipe, &other);
    if answer.is_ok() {
        assert_eq!(answer, Ok(equal), "seed {seed}: {recipe:?}, {other:?}");
    }
    answer
}

/// Runs a comparison on one seed for every ten of the random cases.
fn each_pair(compare: impl Fn(u64) -> Answer) {
    each_seed(10, |seed| {
        compare(seed).ok();
    });
}

#[test]
fn reordered_pairs_agree() {
    each_pair(|seed| related(seed, reordered));
}

#[test]
fn pairs_with_other_ones_agree() {
    each_pair(|seed| related(seed, other_ones));
}

#[test]
fn pairs_with_axes_exchanged_agree() {
    each_pair(|seed| related(seed, exchanged));
}

#[test]
fn pairs_with_one_width_added_agree() {
    each_pair(|seed| related(seed, added));
}

#[test]
fn pairs_with_one_width_dropped_agree() {
    each_pair(|seed| related(seed, dropped));
}

#[test]
fn pairs_with_one_width_changed_agree() {
    each_pair(|seed| related(seed, changed));
}

#[test]
fn pairs_with_one_width_moved_agree() {
    each_pair(|seed| related(seed, moved));
}

#[test]
fn pairs_with_two_widths_joined_agree() {
    each_pair(|seed| related(seed, joined));
}

/// Two recipes that are drawn each without regard to the other.
fn unrelated(seed: u64) -> Answer {
    let mut random = Random::new(seed);
    let a = accepted_recipe(&mut random);
    let b = accepted_recipe(&mut random);
    compare(&mut random, seed, &a, &b)
}

#[test]
fn unrelated_pairs_agree() {
    each_pair(unrelated);
}

/// The same 48 bytes on each axis, with a lower count on one axis, in both
/// orders: the widths that the lower count leaves out are not compared.
fn cut(seed: u64) -> Answer {
    let mut random = Random::new(seed);
    let recipe = accepted_recipe(&mut random);
    let long = filter_of(&recipe);
    let mut short = long;
    let cascade = match random.coin() {
        true => &mut short.rows,
        false => &mut short.columns,
    };
    let kept = random.between(0, cascade.count.into());
    let left_out = &cascade.widths[kept..cascade.count.into()];
    let equal = left_out.iter().all(|&n| n == 1);
    cascade.count = kept as u8;
    let [long, short] = [long, short].map(|filter| Case::new(&mut random, seed, filter));
    for (a, b) in [(&long, &short), (&short, &long)] {
        let answer = agree::equivalent(a, b, &mut random);
        assert_eq!(answer, Ok(equal), "{a:?}, {b:?}");
    }
    Ok(equal)
}

#[test]
fn widths_past_the_count_are_not_compared() {
    each_pair(cut);
}

/// Two filters of any kind, refused ones among them: the answer, and the number
/// of each alone. Half the time the second is the first with a change in one
/// byte.
fn any_pair(seed: u64) -> (Answer, [u8; 2]) {
    let (a, mut random) = Case::random(seed);
    let mut other = any_filter(&mut random);
    if random.coin() {
        other = a.filter;
        damage(&mut random, &mut other);
    }
    let b = Case::new(&mut random, seed, other);
    let answer = agree::equivalent(&a, &b, &mut random);
    (answer, [agree::check(&a), agree::check(&b)])
}

#[test]
fn pairs_of_any_kind_agree() {
    each_pair(|seed| any_pair(seed).0);
}

/// A recipe and any relative of it in both orders. At most one of them is
/// refused, so the number does not change either.
fn both_ways(seed: u64) -> Answer {
    let mut random = Random::new(seed);
    let maker = random.one_of(&MAKERS);
    let (a, b, _) = relatives(&mut random, maker);
    let there = compare(&mut random, seed, &a, &b);
    let back = compare(&mut random, seed, &b, &a);
    assert_eq!(there, back, "seed {seed}: {a:?}, {b:?}");
    there
}

#[test]
fn the_order_of_the_two_does_not_matter() {
    each_pair(both_ways);
}

/// A filter of any kind beside itself.
fn itself(seed: u64) -> Answer {
    let (case, mut random) = Case::random(seed);
    let answer = agree::equivalent(&case, &case, &mut random);
    let expected = match agree::check(&case) {
        0 => Ok(true),
        number => Err(number),
    };
    assert_eq!(answer, expected, "{case:?}");
    answer
}

#[test]
fn every_accepted_filter_is_equal_to_itself() {
    each_pair(itself);
}

/// The call on two recipes, first as they are and then disguised.
fn compare_twice(random: &mut Random, seed: u64, a: &Recipe, b: &Recipe) -> Answer {
    let plain = compare(random, seed, a, b);
    let [other_a, other_b] = [a, b].map(|recipe| disguised(random, recipe));
    let answer = compare(random, seed, &other_a, &other_b);
    assert_eq!(answer, plain, "{a:?}, {b:?}, {other_a:?}, {other_b:?}");
    answer
}

/// Compares the two lists of every pair on one axis and on both. The recipes are
/// equal only where both have the same list on each axis.
fn compare_on_axes(pairs: Vec<[Vec<u8>; 2]>) {
    let mut random = Random::new(1);
    for [x, y] in pairs {
        for (a, b, equal) in [
            (Recipe::new(&x, &[]), Recipe::new(&y, &[]), false),
            (Recipe::new(&[], &x), Recipe::new(&[], &y), false),
            (Recipe::new(&x, &x), Recipe::new(&y, &y), false),
            (Recipe::new(&x, &y), Recipe::new(&y, &x), false),
            (Recipe::new(&x, &x), Recipe::new(&x, &y), false),
            (Recipe::new(&y, &x), Recipe::new(&x, &x), false),
            (Recipe::new(&x, &y), Recipe::new(&x, &y), true),
        ] {
            let answer = compare_twice(&mut random, 0, &a, &b);
            assert_eq!(answer, Ok(equal), "{a:?}, {b:?}");
        }
    }
}

#[test]
fn near_misses_are_told_apart() {
    compare_on_axes(near_misses());
}

#[test]
fn lists_with_equal_powers_are_told_apart() {
    let pairs = equal_powers();
    assert!(pairs.contains(&[vec![1, 5, 8, 12], vec![2, 3, 10, 11]]));
    assert_eq!(pairs.len(), 1_182);
    // None of them is a near miss.
    let weight = |list: &[u8]| reference::weight(&Recipe::new(list, &[]));
    assert!(pairs.iter().all(|[x, y]| weight(x) != weight(y)));
    compare_on_axes(pairs);
}

/// How many near misses there are, how many of them have a different number of
/// widths above 1, and how many have the same scale card as well.
#[test]
fn near_misses_are_many() {
    let pairs = near_misses();
    assert!(pairs.contains(&[vec![2, 6, 6], vec![3, 3, 8]]));
    let ones = |list: &[u8]| list.iter().filter(|&&n| n == 1).count();
    let mut uneven = 0;
    let mut same_cards = 0;
    for [x, y] in &pairs {
        assert_ne!(x, y);
        assert_eq!(x.len(), y.len());
        uneven += usize::from(ones(x) != ones(y));
        let [card, other] = [x, y].map(|list| {
            let card = reference::scale_card(&Recipe::new(list, &[]));
            card.expect("a near miss is accepted")
        });
        assert_eq!(card.row_reach, other.row_reach);
        assert_eq!(card.weight, other.weight);
        same_cards += usize::from(card == other);
    }
    assert_eq!((pairs.len(), uneven, same_cards), (11_423, 2_872, 87));
}

/// All widths of a list times a number, if they still are widths.
fn times(list: &[u8], factor: u8) -> Option<Vec<u8>> {
    list.iter().map(|n| n.checked_mul(factor)).collect()
}

/// A near miss, at times with all its widths multiplied.
fn any_near_miss(random: &mut Random, pairs: &[[Vec<u8>; 2]]) -> [Vec<u8>; 2] {
    let pair = &pairs[random.between(0, pairs.len() - 1)];
    let factor = random.one_of(&[1, 1, 2, 3, 5, 7]);
    match pair.each_ref().map(|list| times(list, factor)) {
        [Some(x), Some(y)] => [x, y],
        _ => pair.clone(),
    }
}

/// A recipe of a list and further boxes, these behind the list or on the other
/// axis.
fn placed(place: usize, list: &[BoxFilter], further: &[BoxFilter]) -> Recipe {
    let long = [list, further].concat();
    let (rows, columns) = match place {
        0 => (long, vec![]),
        1 => (vec![], long),
        2 => (list.to_vec(), further.to_vec()),
        _ => (further.to_vec(), list.to_vec()),
    };
    Recipe { rows, columns }
}

/// A near miss with the same further widths on both sides. These may be its own
/// two lists: then both sides have the same set of widths.
fn extended(seed: u64, pairs: &[[Vec<u8>; 2]]) -> Answer {
    let mut random = Random::new(seed);
    let [x, y] = any_near_miss(&mut random, pairs).map(|list| boxes(&list));
    let further = match random.between(0, 3) {
        0 => [&x[..], &y[..]].concat(),
        1 => random.one_of(&[&x, &y]).clone(),
        _ => accepted_recipe(&mut random).rows,
    };
    let equal = random.between(0, 3) == 0;
    let place = random.between(0, 3);
    let a = placed(place, &x, &further);
    let b = placed(place, if equal { &x } else { &y }, &further);
    let answer = compare_twice(&mut random, seed, &a, &b);
    if answer.is_ok() {
        assert_eq!(answer, Ok(equal), "seed {seed}: {a:?}, {b:?}");
    }
    answer
}

#[test]
fn near_misses_with_other_widths_agree() {
    let pairs = near_misses();
    each_pair(|seed| extended(seed, &pairs));
}

/// The first cases have to meet a no, and a yes, often where it is due and never
/// where it is not.
fn meets(due: [bool; 2], compare: impl Fn(u64) -> Answer) {
    let mut met = [0; 2];
    for seed in 0..1000 {
        if let Ok(answer) = compare(seed) {
            met[usize::from(answer)] += 1;
        }
    }
    for (count, due) in met.into_iter().zip(due) {
        let enough = if due { count >= 20 } else { count == 0 };
        assert!(enough, "{met:?}");
    }
}

#[test]
fn random_cases_meet_both_answers() {
    let [yes, both] = [[false, true], [true, true]];
    meets(yes, |seed| related(seed, reordered));
    meets(yes, |seed| related(seed, other_ones));
    meets(both, |seed| related(seed, exchanged));
    meets(both, |seed| related(seed, added));
    meets(both, |seed| related(seed, dropped));
    meets(both, |seed| related(seed, changed));
    meets(both, |seed| related(seed, moved));
    meets(both, |seed| related(seed, joined));
    meets(both, unrelated);
    meets(both, cut);
    meets(both, |seed| any_pair(seed).0);
    meets(both, both_ways);
    meets(yes, itself);
    let pairs = near_misses();
    meets(both, |seed| extended(seed, &pairs));
}

/// How often the first cases meet each number of the one beside each number of
/// the other.
#[test]
fn random_cases_meet_every_two_numbers() {
    let mut met = [[0; 5]; 5];
    for seed in 0..4000 {
        let (answer, [a, b]) = any_pair(seed);
        met[usize::from(a)][usize::from(b)] += 1;
        let number = if a > 0 { a } else { b };
        assert_eq!(agree::number(&answer), number, "seed {seed}");
    }
    let often = |counts: &[usize; 5]| counts.iter().all(|&n| n >= 5);
    assert!(met.iter().all(often), "{met:?}");
}
