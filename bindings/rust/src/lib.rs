//! Drintelbok's nearest-neighbour index for home gateways, as a safe Rust crate over its proved static library.
//!
//! [`Index`] owns its memory and replaces the published `PipnnIndex`; [`Lent`] works over memory that the caller passes in, and
//! without the feature `std` the crate is `no_std` and has only that. [`sys`] has the library's functions over slices. What each
//! call promises, and how to choose `ef`, is in include/pipnn.h.
//!
//! ```
//! # #[cfg(feature = "std")]
//! # fn main() -> Result<(), pipnn_gateway::Error> {
//! use pipnn_gateway::{Index, Params};
//!
//! let mut index = Index::new(2, Params::default(), 8)?;
//! index.add(10, [1.0, 0.0])?;
//! index.add(20, [0.0, 1.0])?;
//! index.build()?;
//! assert_eq!(index.search(&[2.0, 0.0], 1)?, [(10, 0.0)]);
//! # Ok(())
//! # }
//! # #[cfg(not(feature = "std"))]
//! # fn main() {}
//! ```
#![cfg_attr(not(feature = "std"), no_std)]
#![deny(unsafe_code)]
#![warn(missing_debug_implementations)]

mod error;
#[cfg(feature = "std")]
mod index;
mod lent;
mod params;
#[allow(unsafe_code)]
pub mod sys;

pub use error::Error;
#[cfg(feature = "std")]
pub use index::{Index, Scratch};
pub use lent::{household_count, Found, Lent, Recognition};
pub use params::*;

/// The Rust program of the repository's README.md, as a test.
#[cfg(all(doctest, feature = "std"))]
#[doc = include_str!("../../../README.md")]
struct Readme;
