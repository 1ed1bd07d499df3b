//! Random rows of sums for the rounding call.

use reference::random::Random;
use reference::{Recipe, LARGEST_GREY};

/// The weight where the recipe is accepted, else 1.
pub fn weight(recipe: &Recipe) -> u64 {
    reference::scale_card(recipe).map_or(1, |card| card.weight)
}

/// A sum that is accepted: next to a half, at a whole grey, or any other.
fn any_sum(random: &mut Random, weight: u64) -> u64 {
    let most = LARGEST_GREY * weight;
    let whole = random.grey() * weight;
    let half = whole + weight / 2;
    let any = random.word() % (most + 1);
    let sum = random.one_of(&[
        half.saturating_sub(1),
        half,
        half + 1,
        whole,
        any,
        any,
        0,
        most,
    ]);
    sum.min(most)
}

/// A sum that is refused 11.
fn bright_sum(random: &mut Random, weight: u64) -> u64 {
    let most = LARGEST_GREY * weight;
    let any = random.word() % (u64::MAX - most);
    random.one_of(&[most + 1, most + 1 + any, 1 << 63, u64::MAX])
}

/// A row of sums; one in eight has one or two that are refused.
pub fn any_sums(random: &mut Random, weight: u64) -> Vec<u64> {
    let any = random.between(0, 60);
    let long = random.between(0, 2000);
    let length = random.one_of(&[0, 1, 2, any, any, any, any, long]);
    let mut sums: Vec<u64> = (0..length).map(|_| any_sum(random, weight)).collect();
    if random.between(0, 7) == 0 && length > 0 {
        for _ in 0..random.between(1, 2) {
            sums[random.between(0, length - 1)] = bright_sum(random, weight);
        }
    }
    sums
}
