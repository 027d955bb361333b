//! The Rust's `monomial.rs`, unchanged; `oracle/build` puts it under `rust-source`.

#![allow(clippy::all)]

#[rustfmt::skip]
#[path = "../../rust-source/cuda-backend/src/monomial.rs"]
pub mod monomial;
