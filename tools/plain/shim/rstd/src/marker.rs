//! Markers.

pub use std::marker::*;

/// A type with a model. Impls of it are for the prover, and stay out of the translation.
pub trait Model {}
