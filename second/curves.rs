//! Demand curves and the curve book file (RULES.md, section 4; FORMATS.md, section 4; REFUSALS.md, sections 5 and 6).

use crate::feed::{u16_at, u32_at};

pub const MOST_CURVES: usize = 32;
pub const MOST_STEPS: usize = 8;
const MOST_MARGIN: u32 = 1_000_000;
const MOST_PRICE: u32 = 100_000;

/// A curve book file longer than this is refused in any case: its length does not suit its counts, or a curve has a
/// ninth step, or there are too many curves. So nobody needs to read more than one byte beyond it.
pub const LONGEST_FILE: usize = 2 + 2 * MOST_CURVES + 8 * MOST_CURVES * MOST_STEPS;

/// Where a curve book is wrong: what refusal 51 tells.
#[derive(Clone, Copy, Debug, PartialEq, Eq)]
pub struct WrongStep {
    pub curve: usize,
    pub step: usize,
}

#[derive(Clone, Copy, Default)]
struct Step {
    margin: i64,
    price: i64,
}

#[derive(Clone, Copy, Default)]
pub struct Curve {
    steps: [Step; MOST_STEPS],
    count: usize,
}

impl Curve {
    /// A curve of these (margin, price) steps, or the first step that is wrong.
    fn load(steps: impl ExactSizeIterator<Item = (u32, u32)>) -> Result<Curve, usize> {
        let mut curve = Curve::default();
        let last = steps.len().wrapping_sub(1);
        let mut before: Option<(u32, u32)> = None;
        for (i, (margin, price)) in steps.enumerate() {
            let falls = match before {
                None => true,
                Some((margin_before, price_before)) => margin < margin_before && price < price_before,
            };
            let right = i < MOST_STEPS
                && margin <= MOST_MARGIN
                && (1..=MOST_PRICE).contains(&price)
                && falls
                && (i != last || margin == 0);
            if !right {
                return Err(i);
            }
            curve.steps[i] = Step { margin: i64::from(margin), price: i64::from(price) };
            curve.count = i + 1;
            before = Some((margin, price));
        }
        Ok(curve)
    }

    /// The most that the shadow price may be: the price of the first step with `quantity + margin <= target`.
    pub fn value(&self, target: i64, quantity: i64) -> i64 {
        for step in &self.steps[..self.count] {
            if quantity + step.margin <= target {
                return step.price;
            }
        }
        0
    }
}

pub struct CurveBook {
    curves: [Curve; MOST_CURVES],
    count: usize,
}

impl CurveBook {
    /// The curve book of a curve book file's bytes.
    pub fn load(file: &[u8]) -> Result<CurveBook, WrongStep> {
        let count = if file.len() < 2 { 0 } else { usize::from(u16_at(file, 0)) };
        let wrong_whole = WrongStep { curve: count, step: 0 };
        let heads = 2 + 2 * count;
        if count == 0 || count > MOST_CURVES || file.len() < heads {
            return Err(wrong_whole);
        }
        let step_count = |curve: usize| usize::from(u16_at(file, 2 + 2 * curve));
        let all_steps: usize = (0..count).map(step_count).sum();
        if file.len() != heads + 8 * all_steps {
            return Err(wrong_whole);
        }

        let margins = &file[heads..heads + 4 * all_steps];
        let prices = &file[heads + 4 * all_steps..];
        let mut book = CurveBook { curves: [Curve::default(); MOST_CURVES], count };
        let mut first = 0;
        for curve in 0..count {
            let steps = (first..first + step_count(curve)).map(|i| (u32_at(margins, 4 * i), u32_at(prices, 4 * i)));
            first += steps.len();
            book.curves[curve] = Curve::load(steps).map_err(|step| WrongStep { curve, step })?;
        }
        Ok(book)
    }

    pub fn curves(&self) -> &[Curve] {
        &self.curves[..self.count]
    }
}
