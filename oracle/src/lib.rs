//! The oracle: the Rust of rs-opw-kinematics, run with document 01's
//! trigonometry, up to the candidate check, and 01's operations around it.
//!
//! What is ported is BSD-3-Clause, see ../NOTICE.

pub mod constraints;
pub mod corpus;
pub mod edition;
pub mod float;
pub mod functions;
pub mod generate;
pub mod glam;
pub mod kinematic_traits;
pub mod kinematics_impl;
#[cfg(feature = "linked")]
pub mod linked;
pub mod observe;
pub mod operations;
pub mod page;
pub mod parameters;
pub mod parts;
pub mod pose;
pub mod request;
pub mod singularity;
pub mod stored;
pub mod touching;
pub mod trig;
