//! What is asked of the sampling beside its angles: 01's count of cuts, and that no
//! inner call of the root finder would be refused (change request 5).
//!
//! The ported bodies return neither, so they are noted aside, for each thread.

use crate::operations::{MOST_COEFFICIENTS, bounds_hold, part_holds};
use crate::singularity::j1j2free::{self, Compensated, Polynomial};
use std::cell::Cell;
use std::fmt;

/// The result places that hold every list of roots.
pub const LENT: usize = 509;

/// Inner calls of the root finder: how many, and the most of each thing that Roots
/// tests.
#[derive(Clone, Copy, Debug, Default, PartialEq)]
pub struct Inner {
    pub calls: usize,
    /// Those that Roots, lent 509 places, refuses, or that have a part of 2^400.
    pub refused: usize,
    pub coefficients: usize,
    /// The largest magnitude of a bound, and of a part.
    pub bound: f64,
    pub part: f64,
    /// The longest list.
    pub roots: usize,
}

impl Inner {
    /// One call, before its roots are found.
    fn call(polynomial: &[Compensated], lower: f64, upper: f64) -> Self {
        let parts = || polynomial.iter().flat_map(|value| [value.high, value.low]);
        let fair = polynomial.len() <= MOST_COEFFICIENTS
            && bounds_hold(lower, upper)
            && parts().all(|part| part_holds(part.abs().next_up()));
        Self {
            calls: 1,
            refused: usize::from(!fair),
            coefficients: polynomial.len(),
            bound: lower.abs().max(upper.abs()),
            part: parts().fold(0.0, |most, part| part.abs().max(most)),
            roots: 0,
        }
    }

    /// These and others.
    pub fn and(self, other: Self) -> Self {
        Self {
            calls: self.calls + other.calls,
            refused: self.refused + other.refused,
            coefficients: self.coefficients.max(other.coefficients),
            bound: self.bound.max(other.bound),
            part: self.part.max(other.part),
            roots: self.roots.max(other.roots),
        }
    }
}

impl fmt::Display for Inner {
    fn fmt(&self, f: &mut fmt::Formatter) -> fmt::Result {
        let Self { calls, refused, .. } = self;
        write!(f, "inner calls refused: {refused} of {calls}; at most ")?;
        let (coefficients, roots) = (self.coefficients, self.roots);
        let (bound, part) = (self.bound, self.part);
        write!(
            f,
            "{coefficients} coefficients, bounds {bound}, parts {part:.1e}, {roots} roots"
        )
    }
}

/// What has been noted since the last `reset`.
#[derive(Clone, Copy, Debug, Default)]
pub struct Notes {
    /// The lengths of the lists of cuts, added.
    pub cuts: usize,
    pub inner: Inner,
}

thread_local! {
    static NOTES: Cell<Notes> = Cell::default();
}

/// Forgets what was noted.
pub fn reset() {
    NOTES.take();
}

/// What was noted.
pub fn notes() -> Notes {
    NOTES.get()
}

/// Notes a list of cuts of this length.
pub fn cuts(length: usize) {
    let mut notes = NOTES.get();
    notes.cuts += length;
    NOTES.set(notes);
}

/// The root finder as an inner call, which is noted. With a bound that is not
/// finite its body need not end, so then there is no root.
pub fn roots(polynomial: Polynomial, lower: f64, upper: f64) -> Vec<f64> {
    let mut call = Inner::call(&polynomial, lower, upper);
    let found = if lower.is_finite() && upper.is_finite() {
        j1j2free::roots(polynomial, lower, upper)
    } else {
        Vec::new()
    };
    call.roots = found.len();
    call.refused = call.refused.max(usize::from(found.len() > LENT));
    let mut notes = NOTES.get();
    notes.inner = notes.inner.and(call);
    NOTES.set(notes);
    found
}
