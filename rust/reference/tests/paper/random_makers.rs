//! The random makers: the same seed gives the same values, and each maker gives
//! recipes and jobs of the kind that it names.

use reference::random::Random;
use reference::{check, reach, read_job, weight, Recipe, MOST_WEIGHT};

fn longest(recipe: &Recipe) -> usize {
    recipe.rows.len().max(recipe.columns.len())
}

fn widest_reach(recipe: &Recipe) -> usize {
    reach(&recipe.rows).max(reach(&recipe.columns))
}

#[test]
fn generator_gives_the_known_words_of_splitmix64() {
    let mut random = Random::new(1_234_567);
    assert_eq!(random.word(), 6_457_827_717_110_365_317);
    assert_eq!(random.word(), 3_203_168_211_198_807_973);
    assert_eq!(random.word(), 9_817_491_932_198_370_423);
}

#[test]
fn same_seed_gives_the_same_values() {
    let (mut one, mut other) = (Random::new(42), Random::new(42));
    for _ in 0..50 {
        assert_eq!(one.damaged_recipe(), other.damaged_recipe());
        assert_eq!(one.damaged_job(5, 5), other.damaged_job(5, 5));
    }
}

#[test]
fn valid_recipes_are_accepted() {
    let mut random = Random::new(10);
    let mut long = 0;
    for _ in 0..500 {
        let most_reach = random.one_of(&[0, 5, 255]);
        let recipe = random.valid_recipe(most_reach);
        assert_eq!(check(&recipe), Ok(()));
        assert!(widest_reach(&recipe) <= most_reach);
        long += usize::from(longest(&recipe) > 30);
    }
    assert!(long > 0);
}

#[test]
fn recipes_of_each_length() {
    let mut random = Random::new(11);
    for _ in 0..100 {
        for length in [0, 1, 48] {
            assert_eq!(check(&random.recipe_of_length(length)), Ok(()));
        }
        for length in [49, 255] {
            let recipe = random.recipe_of_length(length);
            assert_eq!(longest(&recipe), length);
            assert_eq!(check(&recipe), Err(1));
        }
    }
}

#[test]
fn recipes_with_a_zero_width() {
    let mut random = Random::new(12);
    for _ in 0..200 {
        assert_eq!(check(&random.recipe_with_zero()), Err(2));
    }
}

#[test]
fn recipes_of_each_reach() {
    let mut random = Random::new(13);
    for _ in 0..200 {
        let recipe = random.recipe_of_reach(255);
        assert_eq!((widest_reach(&recipe), check(&recipe)), (255, Ok(())));
        let recipe = random.recipe_of_reach(256);
        assert_eq!((widest_reach(&recipe), check(&recipe)), (256, Err(3)));
    }
}

#[test]
fn recipes_at_the_weight_limit() {
    let mut random = Random::new(14);
    for _ in 0..200 {
        let recipe = random.recipe_of_full_weight();
        assert_eq!((weight(&recipe), check(&recipe)), (MOST_WEIGHT, Ok(())));
        let recipe = random.recipe_just_below();
        assert_eq!(
            (weight(&recipe), check(&recipe)),
            (MOST_WEIGHT - 256, Ok(()))
        );
        let recipe = random.recipe_just_above();
        assert_eq!(
            (weight(&recipe), check(&recipe)),
            (MOST_WEIGHT + 11_952, Err(4))
        );
    }
}

#[test]
fn damaged_recipes_reach_every_refusal() {
    let mut random = Random::new(15);
    let mut seen = [0; 5];
    for _ in 0..500 {
        match check(&random.damaged_recipe()) {
            Ok(()) => seen[0] += 1,
            Err(number) => seen[usize::from(number)] += 1,
        }
    }
    assert!(seen.iter().all(|&times| times > 0), "{seen:?}");
}

#[test]
fn jobs_are_accepted_and_damaged_ones_mostly_refused() {
    let mut random = Random::new(16);
    let mut seen = [0; 16];
    for _ in 0..2000 {
        assert!(read_job(&random.job(9, 9)).is_ok());
        match read_job(&random.damaged_job(9, 9)) {
            Ok(_) => seen[0] += 1,
            Err(number) => seen[usize::from(number)] += 1,
        }
    }
    for number in [1, 2, 3, 5, 14] {
        assert!(seen[number] > 0, "{seen:?}");
    }
    assert!(seen[0] < 1000);
}
