//! The units of times by the bar lines of a sheet: the nearest to a time's share of its
//! bar, an exact half upwards. Plain bar lines are evenly spaced and no case of their own.

use super::BAR_UNITS;

/// The first time past the end: a time half a unit before the end, or less, is
/// rounded up to it. So one comparison tells a time at or past the last bar line and a
/// unit at or past B × 20,160.
pub fn first_past_end(bar_lines: &[u32]) -> u32 {
    Bar::at(bar_lines.len() - 2, bar_lines).until
}

/// A bar, by the units of its times: it begins where times are rounded up to its line.
pub struct Bar {
    number: usize,
    line: u32,
    /// The first time of the next bar.
    pub until: u32,
    /// Units in a microsecond and a little more. Made once a bar, so that an onset takes a
    /// product and no division; in floats, since that division is the faster.
    scale: f64,
    /// The bar's first unit and 2^52: floats of that size are whole numbers.
    first_unit: f64,
}

const WHOLE: f64 = (1_u64 << 52) as f64;
/// Units in a bar and 2^-33: more than floats lose by a quotient and a product.
const UNITS: f64 = BAR_UNITS as f64 + 1.0 / (1_u64 << 33) as f64;

impl Bar {
    #[inline(always)]
    pub fn at(number: usize, bar_lines: &[u32]) -> Bar {
        let (line, next) = (bar_lines[number], bar_lines[number + 1]);
        Bar {
            number,
            line,
            until: next - (next - line) / (2 * BAR_UNITS),
            scale: UNITS / f64::from(next - line),
            first_unit: WHOLE + f64::from(number as u32 * BAR_UNITS),
        }
    }

    /// Goes on to the bar of a time, which is before the end: so bars are not searched
    /// for from the first.
    #[inline(always)]
    pub fn go_to(&mut self, time: u32, bar_lines: &[u32]) {
        while time >= self.until {
            *self = Bar::at(self.number + 1, bar_lines);
        }
    }

    /// The unit of a time of this bar.
    ///
    /// The share comes out too large by 2^-48 to 2^-47 of it, so by less than 2^-32
    /// units. One that is no half of a unit differs from it by 1 / (2 × duration) or
    /// more, which is above 2^-27. So it is above a half exactly where it should be at
    /// it or above, and the sum is rounded to the nearest whole number.
    #[inline(always)]
    pub fn unit(&self, time: u32) -> u32 {
        // A time that is rounded up to the bar's line is before it.
        let share = f64::from(time.saturating_sub(self.line)) * self.scale;
        (self.first_unit + share).to_bits() as u32
    }
}
