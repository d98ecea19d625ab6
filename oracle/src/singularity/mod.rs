//! Angles to try where one or two joints of the arm are free.

pub mod continuum;
pub mod j1free;
pub mod j1j2free;
pub mod j2free;
