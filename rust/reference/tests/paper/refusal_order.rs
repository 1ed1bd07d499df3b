//! Refusals 1 to 15 of every call of document 01, and their order: each call is
//! tried with as many faults as possible at once, and the faults are mended from
//! the one that has to be named first to the last.

use crate::{coefficients, columns, rows};
use reference::{
    check, difference, difference_cells, direct, exact_sums, grown_sides, job_length, needed_cells,
    pass_by_pass, reading, round_row, row_cost, same, same_size_blur, scale_card, start_refusal,
    write_job, Choice, Reading, Recipe,
};

/// For each number 1 to 4 recipes for which it is the lowest that applies, on
/// either axis and with higher ones beside it where these can apply too.
fn refused_recipes() -> Vec<(u8, Recipe)> {
    let mut long = vec![255; 49];
    long[48] = 0;
    vec![
        (1, rows(&long)),
        (1, columns(&long)),
        (1, Recipe::new(&[1; 49], &[0, 255, 255])),
        (1, Recipe::new(&[0, 255, 255], &[1; 255])),
        (2, rows(&[0])),
        (2, columns(&[2, 0])),
        (2, Recipe::new(&[255; 48], &[0])),
        (2, Recipe::new(&[255, 0], &[255; 48])),
        (3, Recipe::new(&[255; 48], &[255; 48])),
        (3, Recipe::new(&[255, 3], &[])),
        (3, Recipe::new(&[2; 23], &[255, 255, 255])),
        (4, Recipe::new(&[2; 23], &[2; 22])),
        (4, Recipe::new(&[6; 48], &[6; 48])),
        (4, columns(&[2; 45])),
    ]
}

/// The call, all of whose other arguments are at fault too, names the recipe.
fn names_the_recipe<T>(call: impl Fn(&Recipe) -> Result<T, u8>) {
    for (number, recipe) in refused_recipes() {
        assert_eq!(call(&recipe).err(), Some(number), "{recipe:?}");
    }
}

/// The call, all of whose later arguments are at fault too, names the sides.
fn names_the_sides<T>(call: impl Fn(usize, usize) -> Result<T, u8>) {
    for bad in [0, 1025, 65_536, usize::MAX] {
        assert_eq!(call(bad, 1).err(), Some(5));
        assert_eq!(call(1, bad).err(), Some(5));
        assert_eq!(call(bad, bad).err(), Some(5));
    }
}

fn both() -> Recipe {
    Recipe::new(&[2, 3], &[4])
}

#[test]
fn calls_on_a_recipe_alone() {
    names_the_recipe(check);
    names_the_recipe(scale_card);
    assert_eq!(check(&both()), Ok(()));
    assert_eq!(scale_card(&both()).unwrap().weight, 24);
}

#[test]
fn calls_on_a_recipe_and_sides() {
    names_the_recipe(|recipe| grown_sides(recipe, 0, 0));
    names_the_recipe(|recipe| needed_cells(recipe, 0));
    names_the_recipe(|recipe| row_cost(recipe, 0));
    names_the_recipe(|recipe| job_length(recipe, 0, 0));
    names_the_sides(|w, h| grown_sides(&both(), w, h));
    names_the_sides(|w, h| job_length(&both(), w, h));
    for bad in [0, 1025] {
        assert_eq!(needed_cells(&both(), bad), Err(5));
        assert_eq!(row_cost(&both(), bad), Err(5));
    }
    assert_eq!(grown_sides(&both(), 5, 6), Ok((8, 9)));
    assert_eq!(needed_cells(&both(), 5), Ok(1 + 3 + 8 * 4));
    assert_eq!(row_cost(&both(), 5), Ok(8 * (1 + 2 + 2)));
}

#[test]
fn coefficients_of_one_list() {
    assert_eq!(coefficients(&[1; 49], 0), Err(1));
    assert_eq!(coefficients(&[0, 255, 255], 0), Err(2));
    assert_eq!(coefficients(&[255, 3], 0), Err(3));
    assert_eq!(coefficients(&[2; 45], 0), Err(4));
    assert_eq!(coefficients(&[2; 44], 44), Err(7));
    assert_eq!(coefficients(&[2; 44], 46), Err(7));
    assert_eq!(
        coefficients(&[2; 44], 45).unwrap().iter().sum::<u64>(),
        1 << 44
    );
    assert_eq!(coefficients(&[], 0), Err(7));
    assert_eq!(coefficients(&[], 1), Ok(vec![1]));
}

#[test]
fn start_of_the_one_pass() {
    names_the_recipe(|recipe| start_refusal(recipe, 0, 0, 0));
    names_the_sides(|w, h| start_refusal(&both(), w, h, 0));
    let needed = needed_cells(&both(), 5).unwrap();
    assert_eq!(start_refusal(&both(), 5, 6, 0), Err(8));
    assert_eq!(start_refusal(&both(), 5, 6, needed - 1), Err(8));
    assert_eq!(start_refusal(&both(), 5, 6, needed), Ok(()));
    assert_eq!(start_refusal(&both(), 5, 6, needed + 1), Ok(()));
}

#[test]
fn exact_sums_of_a_picture() {
    names_the_recipe(|recipe| exact_sums(recipe, 0, 0, &[1]));
    names_the_sides(|w, h| exact_sums(&both(), w, h, &[]));
    assert_eq!(exact_sums(&both(), 1, 2, &[1]), Err(6));
    assert_eq!(exact_sums(&both(), 1, 2, &[1, 1, 1]), Err(6));
    assert_eq!(exact_sums(&both(), 1, 2, &[1, 1]).unwrap().len(), 4 * 5);
}

#[test]
fn pass_by_pass_method() {
    names_the_recipe(|recipe| pass_by_pass(recipe, 0, 0, &[1], 0, 0));
    names_the_sides(|w, h| pass_by_pass(&both(), w, h, &[], 0, 0));
    let call = |pixels: &[u64], out, cells| pass_by_pass(&both(), 2, 1, pixels, out, cells);
    assert_eq!(call(&[1], 0, 0), Err(6));
    assert_eq!(call(&[1, 2], 19, 0), Err(7));
    assert_eq!(call(&[1, 2], 21, 0), Err(7));
    assert_eq!(call(&[1, 2], 20, 19), Err(8));
    let sums = exact_sums(&both(), 2, 1, &[1, 2]);
    assert_eq!(call(&[1, 2], 20, 20), sums);
    assert_eq!(call(&[1, 2], 20, 21), sums);
}

#[test]
fn direct_method() {
    names_the_recipe(|recipe| direct(recipe, 0, 0, &[1], 0, 0, 0));
    names_the_sides(|w, h| direct(&both(), w, h, &[], 0, 0, 0));
    let call = |pixels: &[u64], r, c, out| direct(&both(), 2, 1, pixels, r, c, out);
    assert_eq!(call(&[1], 0, 0, 0), Err(6));
    assert_eq!(call(&[1, 2], 3, 4, 20), Err(7));
    assert_eq!(call(&[1, 2], 4, 5, 20), Err(7));
    assert_eq!(call(&[1, 2], 4, 4, 19), Err(7));
    let output = call(&[1, 2], 4, 4, 20).unwrap();
    assert_eq!((output.r, output.c), (vec![1, 2, 2, 1], vec![1; 4]));
    assert_eq!(Ok(output.sums), exact_sums(&both(), 2, 1, &[1, 2]));
}

#[test]
fn rounding_of_a_row() {
    names_the_recipe(|recipe| round_row(recipe, &[u64::MAX], [0; 2]));
    let recipe = rows(&[3]);
    for out_lens in [[0, 1], [2, 1], [1, 0], [1, 2], [0, 0], [2, 2]] {
        assert_eq!(round_row(&recipe, &[u64::MAX], out_lens), Err(7));
    }
    assert_eq!(round_row(&recipe, &[u64::MAX], [1; 2]), Err(11));
    assert_eq!(round_row(&recipe, &[0, 766], [2; 2]), Err(11));
    let rounded = round_row(&recipe, &[0, 1, 2, 765], [4; 2]).unwrap();
    assert_eq!(rounded.greys, [0, 0, 1, 255]);
    assert_eq!(rounded.leftovers, [0, 1, -1, 0]);
    assert_eq!(round_row(&recipe, &[], [0; 2]).unwrap().greys, []);
}

#[test]
fn same_size_blur_of_a_picture() {
    names_the_recipe(|recipe| same_size_blur(recipe, 0, 0, &[1], [9; 2], 0));
    names_the_sides(|w, h| same_size_blur(&both(), w, h, &[], [9; 2], 0));
    let call = |pixels: &[u64], out, cells| same_size_blur(&both(), 2, 1, pixels, out, cells);
    assert_eq!(call(&[1], [1; 2], 0), Err(6));
    for out_lens in [[1, 2], [3, 2], [2, 1], [2, 3], [1, 1]] {
        assert_eq!(call(&[1, 2], out_lens, 0), Err(7));
    }
    assert_eq!(call(&[1, 2], [2; 2], 39), Err(8));
    let blurred = call(&[1, 2], [2; 2], 40).unwrap();
    assert_eq!((blurred.greys.len(), blurred.leftovers.len()), (2, 2));
    assert_eq!(call(&[1, 2], [2; 2], 41), Ok(blurred));
}

#[test]
fn difference_names_a_before_b() {
    let late = Recipe::new(&[2; 23], &[2; 22]);
    names_the_recipe(|recipe| difference(recipe, &late, 0, 0, &[1], 9, 0));
    names_the_recipe(|recipe| difference(recipe, &rows(&[1; 49]), 0, 0, &[1], 9, 0));
    names_the_recipe(|recipe| difference(&both(), recipe, 0, 0, &[1], 9, 0));
    names_the_sides(|w, h| difference(&both(), &rows(&[2; 44]), w, h, &[], 9, 0));
    names_the_recipe(|recipe| difference_cells(recipe, &late, 0, 0));
    names_the_recipe(|recipe| difference_cells(&both(), recipe, 0, 0));
    names_the_sides(|w, h| difference_cells(&both(), &both(), w, h));
}

#[test]
fn difference_of_two_recipes() {
    // Odd and even reaches on the rows, and a weight product of 2^45.
    let (a, b) = (rows(&[2]), rows(&[2; 44]));
    let cells = 2 * (3 + 46);
    let call = |b: &Recipe, pixels: &[u64], out, cells| difference(&a, b, 2, 1, pixels, out, cells);
    assert_eq!(call(&b, &[1], 1, 0), Err(6));
    assert_eq!(call(&b, &[1, 2], 1, 0), Err(7));
    assert_eq!(call(&b, &[1, 2], 3, 0), Err(7));
    assert_eq!(call(&b, &[1, 2], 2, cells - 1), Err(8));
    assert_eq!(call(&b, &[1, 2], 2, cells), Err(12));
    let mut odd_reach = vec![2; 41];
    odd_reach.push(5);
    assert_eq!(call(&rows(&odd_reach), &[1, 2], 2, 1000), Err(13));
    let just_right = rows(&[2; 43]);
    assert!(call(&just_right, &[1, 2], 2, 1000).is_ok());
}

#[test]
fn difference_judges_parity_on_each_axis() {
    let call = |a: &Recipe, b: &Recipe| difference(a, b, 1, 1, &[8], 1, 100);
    assert_eq!(call(&rows(&[2]), &rows(&[])), Err(12));
    assert_eq!(call(&columns(&[]), &columns(&[4])), Err(12));
    assert_eq!(call(&rows(&[2]), &columns(&[2])), Err(12));
    assert_eq!(call(&Recipe::new(&[2], &[2]), &Recipe::default()), Err(12));
    assert_eq!(call(&rows(&[2]), &rows(&[4])), Ok(vec![2]));
    assert_eq!(call(&columns(&[3]), &columns(&[])), Ok(vec![-5]));
}

#[test]
fn reading_at_one_place() {
    for choice in [Choice::Grey, Choice::Sum, Choice::Quotient] {
        names_the_recipe(|recipe| reading(recipe, 0, 0, &[1], (9, 9), choice));
        names_the_sides(|w, h| reading(&both(), w, h, &[], (9, 9), choice));
        let call = |pixels: &[u64], place| reading(&both(), 2, 1, pixels, place, choice);
        assert_eq!(call(&[1], (2, 1)), Err(6));
        assert_eq!(call(&[1, 2], (2, 0)), Err(15));
        assert_eq!(call(&[1, 2], (0, 1)), Err(15));
        assert_eq!(call(&[1, 2], (usize::MAX, usize::MAX)), Err(15));
        assert!(call(&[1, 2], (1, 0)).is_ok());
    }
    let call = |choice| reading(&rows(&[3]), 2, 1, &[1, 4], (1, 0), choice);
    // Two of the three coefficients fall inside.
    assert_eq!(call(Choice::Grey), Ok(Reading::Grey(3, -1)));
    assert_eq!(call(Choice::Sum), Ok(Reading::Sum(5)));
    assert_eq!(call(Choice::Quotient), Ok(Reading::Quotient(2.5)));
}

#[test]
fn sameness_names_a_before_b() {
    names_the_recipe(|recipe| same(recipe, &rows(&[1; 49])));
    names_the_recipe(|recipe| same(recipe, recipe));
    names_the_recipe(|recipe| same(&both(), recipe));
}

#[test]
fn writing_a_job() {
    names_the_recipe(|recipe| write_job(recipe, 0, 0, &[1], 0));
    names_the_sides(|w, h| write_job(&both(), w, h, &[], 0));
    let call = |pixels: &[u64], out| write_job(&both(), 2, 1, pixels, out);
    assert_eq!(call(&[1], 0), Err(6));
    assert_eq!(call(&[1, 2], 15), Err(7));
    assert_eq!(call(&[1, 2], 17), Err(7));
    assert_eq!(call(&[1, 2], 16).unwrap().len(), 16);
}
