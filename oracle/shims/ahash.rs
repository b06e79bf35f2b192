//! Stands in for `ahash`: the plain map has no hasher.

#[derive(Clone, Debug, Default)]
pub struct RandomState;
