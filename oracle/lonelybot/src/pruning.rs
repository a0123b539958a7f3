//! Stands in for src/pruning.rs, which is not in the sources: the trait that engine.rs names, and a pruner that prunes nothing.
use crate::{
    moves::{Move, MoveMask},
    state::{ExtraInfo, Solitaire},
};

pub trait Pruner {
    fn update(old: &Self, m: Move, rev_m: Option<Move>, extra: ExtraInfo) -> Self;
    fn prune_moves(&self, s: &Solitaire) -> MoveMask;
}

#[derive(Default)]
pub struct NoPruner;

impl Pruner for NoPruner {
    fn update(_: &Self, _: Move, _: Option<Move>, _: ExtraInfo) -> Self {
        Self
    }
    fn prune_moves(&self, _: &Solitaire) -> MoveMask {
        MoveMask::default()
    }
}
