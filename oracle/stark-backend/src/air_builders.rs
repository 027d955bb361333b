#[rustfmt::skip]
#[path = "../../rust-source/stark-backend/src/air_builders/symbolic/mod.rs"]
pub mod symbolic;

/// The one builder trait that `symbolic` takes from its parent.
pub trait PartitionedAirBuilder: p3_air::AirBuilder {
    fn cached_mains(&self) -> &[Self::M];
    fn common_main(&self) -> &Self::M;
}
