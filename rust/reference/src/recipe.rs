//! Recipes: the refusals 1 to 5 and all that is known of a recipe without a
//! picture (coefficients, reach, weight, grown sides, needed cells, cost,
//! scale card and sameness).

/// The most widths that a list may hold.
pub const MOST_WIDTHS: usize = 48;
/// The largest reach of a list.
pub const MOST_REACH: usize = 255;
/// The largest weight of a recipe, 2^44.
pub const MOST_WEIGHT: u128 = 17_592_186_044_416;
/// The largest width or height of a picture.
pub const MOST_SIDE: usize = 1024;

/// A box: as many coefficients 1 as its width says, one at each `spread`-th
/// place from 0 on. All boxes of the paper have spread 1.
#[derive(Clone, Copy, Debug, PartialEq, Eq, PartialOrd, Ord)]
pub struct BoxFilter {
    pub width: u8,
    pub spread: u8,
}

impl BoxFilter {
    /// The box of a plain width.
    pub fn of_width(width: u8) -> BoxFilter {
        BoxFilter { width, spread: 1 }
    }

    /// (n - 1) times the spread, the place of the last coefficient. A width of
    /// 0, which every call refuses, counts nothing here.
    fn reach(self) -> usize {
        usize::from(self.width).saturating_sub(1) * usize::from(self.spread)
    }

    /// The coefficients from place 0 to the reach.
    fn coefficients(self) -> Vec<u128> {
        let mut coefficients = vec![0; self.reach() + 1];
        for k in 0..usize::from(self.width) {
            coefficients[k * usize::from(self.spread)] = 1;
        }
        coefficients
    }
}

/// The list of boxes of plain widths.
pub fn boxes(widths: &[u8]) -> Vec<BoxFilter> {
    widths.iter().map(|&n| BoxFilter::of_width(n)).collect()
}

/// A row list and a column list of boxes. A list of more than 48 entries
/// stands for a list whose count is above 48.
#[derive(Clone, Debug, Default, PartialEq, Eq)]
pub struct Recipe {
    pub rows: Vec<BoxFilter>,
    pub columns: Vec<BoxFilter>,
}

impl Recipe {
    /// The recipe of two lists of plain widths.
    pub fn new(rows: &[u8], columns: &[u8]) -> Recipe {
        Recipe {
            rows: boxes(rows),
            columns: boxes(columns),
        }
    }
}

/// The sum of the reaches of a list's boxes.
pub fn reach(list: &[BoxFilter]) -> usize {
    let mut sum = 0;
    for one in list {
        sum += one.reach();
    }
    sum
}

/// The product of all widths of both lists. The product stays at the largest
/// 128-bit number if it would pass it; an accepted one is at most 2^44.
pub fn weight(recipe: &Recipe) -> u128 {
    let mut product: u128 = 1;
    for one in recipe.rows.iter().chain(&recipe.columns) {
        product = product.saturating_mul(u128::from(one.width));
    }
    product
}

/// Refusals 1 to 4.
pub fn check(recipe: &Recipe) -> Result<(), u8> {
    let lists = [&recipe.rows, &recipe.columns];
    if lists.iter().any(|list| list.len() > MOST_WIDTHS) {
        return Err(1);
    }
    let mut boxes = recipe.rows.iter().chain(&recipe.columns);
    if boxes.any(|one| one.width == 0) {
        return Err(2);
    }
    if lists.iter().any(|list| reach(list) > MOST_REACH) {
        return Err(3);
    }
    if weight(recipe) > MOST_WEIGHT {
        return Err(4);
    }
    Ok(())
}

/// Refusal 5 for one side.
fn check_side(side: usize) -> Result<(), u8> {
    if side == 0 || side > MOST_SIDE {
        return Err(5);
    }
    Ok(())
}

/// Refusals 1 to 5.
pub fn check_sides(recipe: &Recipe, w: usize, h: usize) -> Result<(), u8> {
    check(recipe)?;
    check_side(w)?;
    check_side(h)
}

/// The weight of an accepted recipe.
pub(crate) fn accepted_weight(recipe: &Recipe) -> u64 {
    u64::try_from(weight(recipe)).expect("an accepted weight is at most 2^44")
}

/// The product of two polynomials, coefficients counted from power 0.
fn multiply(p: &[u128], q: &[u128]) -> Vec<u128> {
    let mut product = vec![0; p.len() + q.len() - 1];
    for i in 0..p.len() {
        for k in 0..q.len() {
            product[i + k] += p[i] * q[k];
        }
    }
    product
}

/// The coefficients of a list that is accepted as a recipe of its own.
pub fn coefficients_of(list: &[BoxFilter]) -> Vec<u64> {
    let mut product: Vec<u128> = vec![1];
    for one in list {
        product = multiply(&product, &one.coefficients());
    }
    let narrow = |value| u64::try_from(value).expect("an accepted coefficient is at most 2^44");
    product.into_iter().map(narrow).collect()
}

/// The coefficients of one list alone: refusals 1 to 4 for the list as a recipe
/// of its own, then 7 if the output does not hold reach + 1 numbers.
pub fn coefficients(list: &[BoxFilter], out_len: usize) -> Result<Vec<u64>, u8> {
    check(&Recipe {
        rows: list.to_vec(),
        columns: Vec::new(),
    })?;
    if out_len != reach(list) + 1 {
        return Err(7);
    }
    Ok(coefficients_of(list))
}

/// Width and height of the grown picture; refusals 1 to 5.
pub fn grown_sides(recipe: &Recipe, w: usize, h: usize) -> Result<(usize, usize), u8> {
    check_sides(recipe, w, h)?;
    Ok((w + reach(&recipe.rows), h + reach(&recipe.columns)))
}

/// The cells that a list needs: none for width 1, one for width 2, n for a
/// wider n, times the spread.
pub fn list_cells(list: &[BoxFilter]) -> usize {
    let mut cells = 0;
    for one in list {
        let side_by_side = match one.width {
            0 | 1 => 0,
            2 => 1,
            wider => usize::from(wider),
        };
        cells += side_by_side * usize::from(one.spread);
    }
    cells
}

/// The work cells of the one pass on a picture of width w; refusals 1 to 5.
pub fn needed_cells(recipe: &Recipe, w: usize) -> Result<usize, u8> {
    check(recipe)?;
    check_side(w)?;
    let grown_width = w + reach(&recipe.rows);
    Ok(list_cells(&recipe.rows) + grown_width * list_cells(&recipe.columns))
}

/// The cost of a list: width 1 costs 0, width 2 costs 1, wider costs 2.
pub fn list_cost(list: &[BoxFilter]) -> u64 {
    let mut cost = 0;
    for one in list {
        cost += match one.width {
            0 | 1 => 0,
            2 => 1,
            _ => 2,
        };
    }
    cost
}

/// The additions and subtractions of one row call or drain of the one pass on
/// a picture of width w; refusals 1 to 5.
pub fn row_cost(recipe: &Recipe, w: usize) -> Result<u64, u8> {
    check(recipe)?;
    check_side(w)?;
    let grown_width = (w + reach(&recipe.rows)) as u64;
    Ok(grown_width * (list_cost(&recipe.rows) + list_cost(&recipe.columns)))
}

/// The scale card of a recipe.
#[derive(Clone, Copy, Debug, Default, PartialEq)]
pub struct ScaleCard {
    pub weight: u64,
    pub row_reach: usize,
    pub column_reach: usize,
    pub row_variance: f64,
    pub column_variance: f64,
}

/// The exact sum of (n times n - 1) times the square of the spread, divided by
/// 12 once.
fn variance(list: &[BoxFilter]) -> f64 {
    let mut sum: u32 = 0;
    for one in list {
        let (n, s) = (u32::from(one.width), u32::from(one.spread));
        sum += (n * n - 1) * s * s;
    }
    f64::from(sum) / 12.0
}

/// The scale card; refusals 1 to 4.
pub fn scale_card(recipe: &Recipe) -> Result<ScaleCard, u8> {
    check(recipe)?;
    Ok(ScaleCard {
        weight: accepted_weight(recipe),
        row_reach: reach(&recipe.rows),
        column_reach: reach(&recipe.columns),
        row_variance: variance(&recipe.rows),
        column_variance: variance(&recipe.columns),
    })
}

/// Whether two recipes have the same coefficients on both axes; the refusals
/// 1 to 4 of `a` come before those of `b`.
pub fn same(a: &Recipe, b: &Recipe) -> Result<bool, u8> {
    check(a)?;
    check(b)?;
    let same_rows = coefficients_of(&a.rows) == coefficients_of(&b.rows);
    let same_columns = coefficients_of(&a.columns) == coefficients_of(&b.columns);
    Ok(same_rows && same_columns)
}
