//! Sizes and names: N copies, S numbers per owner, this copy's number.

use crate::refusal::{self, Refusal};
use crate::rules::{within, Deps};

pub const MAX_COPIES: usize = 7;
pub const MAX_NUMBERS: usize = 64;
pub const MAX_INSTANCES: usize = MAX_COPIES * MAX_NUMBERS;

/// A setup and copy number known to be good.
#[derive(Clone, Copy, Debug)]
pub struct Setup {
    pub n: usize,
    pub s: usize,
    pub copy: usize,
    /// The highest value of each dependency entry: S, and zero from copy N on.
    pub highest: Deps,
}

pub fn good_sizes(n: usize, s: usize) -> bool {
    matches!(n, 3 | 5 | 7) && (1..=MAX_NUMBERS).contains(&s)
}

impl Setup {
    pub fn new(n: usize, s: usize, copy: usize) -> Result<Setup, Refusal> {
        if !good_sizes(n, s) || copy >= n {
            return Err(refusal::SETUP);
        }
        let highest = core::array::from_fn(|q| if q < n { s as u16 } else { 0 });
        Ok(Setup { n, s, copy, highest })
    }

    pub fn f(&self) -> u32 {
        (self.n as u32 - 1) / 2
    }

    pub fn has_instance(&self, o: usize, j: usize) -> bool {
        o < self.n && 1 <= j && j <= self.s
    }

    /// The place of o.j among all instances: row by row, numbers rising.
    #[inline]
    pub fn index(&self, o: usize, j: usize) -> usize {
        o * self.s + (j - 1)
    }

    #[inline]
    pub fn is_ballot(&self, b: u32) -> bool {
        b == 0 || (b >= 8 && ((b % 8) as usize) < self.n)
    }

    #[inline]
    pub fn are_deps(&self, deps: &Deps) -> bool {
        within(deps, &self.highest)
    }
}
