//! Near misses: two different lists that have the same length, the same reach
//! and the same weight, as 2,6,6 and 3,3,8 have; and different lists that have
//! the same sums of powers.

use std::collections::BTreeMap;

/// The length of the lists, and the widest width that may stand in them.
const BOUNDS: [(usize, u8); 4] = [(3, 40), (4, 20), (5, 16), (6, 12)];

/// All rising lists of this many widths from `least` to `widest`.
fn rising_lists(length: usize, least: u8, widest: u8) -> Vec<Vec<u8>> {
    if length == 0 {
        return vec![vec![]];
    }
    let mut lists = vec![];
    for n in least..=widest {
        for rest in rising_lists(length - 1, n, widest) {
            lists.push([vec![n], rest].concat());
        }
    }
    lists
}

/// All pairs of different rising lists within one of the bounds that have the
/// same length and the same key. The widths begin at 1, so there are pairs in
/// which widths of 1 make the lengths the same.
fn pairs_of_equal<K: Ord>(key: impl Fn(&[u8]) -> K) -> Vec<[Vec<u8>; 2]> {
    let mut pairs = vec![];
    for (length, widest) in BOUNDS {
        let mut alike: BTreeMap<K, Vec<Vec<u8>>> = BTreeMap::new();
        for list in rising_lists(length, 1, widest) {
            alike.entry(key(&list)).or_default().push(list);
        }
        for lists in alike.values() {
            for (k, y) in lists.iter().enumerate() {
                pairs.extend(lists[..k].iter().map(|x| [x.clone(), y.clone()]));
            }
        }
    }
    pairs
}

/// The sum of a power of the widths.
fn power_sum(list: &[u8], power: u32) -> u64 {
    list.iter().map(|&n| u64::from(n).pow(power)).sum()
}

/// The near misses.
pub fn near_misses() -> Vec<[Vec<u8>; 2]> {
    pairs_of_equal(|list| {
        let weight: u64 = list.iter().map(|&n| u64::from(n)).product();
        (power_sum(list, 1), weight)
    })
}

/// The pairs with the same sums of widths, of their squares and of their cubes.
/// The first two sums give the reach and the variance of the scale card. A
/// comparison by the three sums would tell all near misses apart, but not these
/// pairs.
pub fn equal_powers() -> Vec<[Vec<u8>; 2]> {
    pairs_of_equal(|list| [1, 2, 3].map(|power| power_sum(list, power)))
}
