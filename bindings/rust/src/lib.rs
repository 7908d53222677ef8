//! The proved reader of GPMF, the metadata of action cameras.
//!
//! Each call of libgpmf is a safe function here. Input that is not as it must be is refused with a number and a place: [`Refusal`]. What is not there is `None`.
//!
//! Which seconds of a take had a wet microphone:
//!
//! ```
//! use gpmf::{Group, Tag};
//! let file = std::fs::read("../../samples/take.raw")?;
//! let mut wet = Vec::new();
//! for (second, packet) in gpmf::packets(&file).enumerate() {
//!     let reading = packet.reading()?;
//!     let Some(mwet) = reading.item(Group::of(*b"MWET"), Tag::Data) else { continue };
//!     let mut numbers = vec![0; mwet.bytes()?.len()]; // room for all: no element has less than a byte
//!     let count = mwet.elements_at(&mut numbers)?; // at once: `element` reads one, and of a structure goes through the whole TYPE text for it
//!     if numbers[..count].iter().step_by(mwet.shape()?.columns.max(1)).any(|&main| main != 0) {
//!         wet.push(second + 1);
//!     }
//! }
//! assert_eq!(wet, [2, 3, 4]);
//! # Ok::<(), Box<dyn std::error::Error>>(())
//! ```
//!
//! A packet that is refused is not lost: [`Packet::front`] reads what stands before the place.
//!
//! Calls that print lay text into a lent buffer from a place on and tell the place behind it, or `None` where it does not fit.
#![warn(missing_docs)]

mod axes;
mod group;
mod item;
mod line;
mod number;
mod packets;
mod print;
mod reading;
mod refusal;
mod rows;
mod sys;
mod text;
mod value;

pub use axes::*;
pub use group::*;
pub use item::*;
pub use line::*;
pub use number::*;
pub use packets::*;
pub use print::*;
pub use reading::*;
pub use refusal::Refusal;
pub use rows::*;
pub use text::*;
pub use value::*;

/// The Rust in the README of the bindings is built too.
#[cfg(doctest)]
#[doc = include_str!("../../README.md")]
struct Readme;
