//! The module tree in which five of the Rust's files stand unchanged; `oracle/build` puts them under `rust-source`.

#![allow(dead_code, clippy::all)]

pub mod air_builders;

#[rustfmt::skip]
#[path = "../../rust-source/stark-backend/src/interaction/mod.rs"]
pub mod interaction;

pub mod keygen {
    pub mod types {
        #[derive(Clone, Debug, Default)]
        pub struct TraceWidth {
            pub preprocessed: Option<usize>,
            pub cached_mains: Vec<usize>,
            pub common_main: usize,
        }
    }
}
