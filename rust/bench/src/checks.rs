//! The checks of a recipe in safe Rust.

/// The largest reach.
const MOST_REACH: u32 = 255;
/// The largest weight.
const MOST_WEIGHT: u64 = 1 << 44;

/// The reach of a list in which no width is 0.
pub fn reach(list: &[u8]) -> u32 {
    list.iter().map(|&n| u32::from(n) - 1).sum()
}

/// The weight of a list, held just above the largest one.
fn weight(list: &[u8]) -> u64 {
    let times = |weight: u64, &n: &u8| (weight * u64::from(n)).min(MOST_WEIGHT + 1);
    list.iter().fold(1, times)
}

/// The weight of a recipe whose lists have at most 48 widths each, or its
/// number.
pub fn weight_of(lists: [&[u8]; 2]) -> Result<u64, u8> {
    if lists.iter().any(|list| list.contains(&0)) {
        return Err(2);
    }
    if lists.iter().any(|list| reach(list) > MOST_REACH) {
        return Err(3);
    }
    let [rows, columns] = lists.map(|list| u128::from(weight(list)));
    let product = rows * columns;
    if product > MOST_WEIGHT.into() {
        return Err(4);
    }
    Ok(product as u64)
}
