//! The published GPMF code as a crate, with the probes of what it keeps to itself. See README.md.
#![allow(dead_code, unused_imports, unused_variables, unused_mut)]

pub mod gopro;
pub mod groups;
pub mod plain;
pub mod stand_ins;
pub mod tags_impl;
pub mod util;

pub use stand_ins::*;
