//! Stand-in for the given `coordinates.rs`, which needs a registry crate: its record and constructor.

#[derive(Clone, Copy, Debug)]
pub(crate) struct CriticalBlock {
    pub(super) entity: usize,
    pub(super) start: usize,
    pub(super) end: usize,
    pub(super) route_len: usize,
}

impl CriticalBlock {
    pub(super) const fn new(entity: usize, start: usize, end: usize, route_len: usize) -> Self {
        Self {
            entity,
            start,
            end,
            route_len,
        }
    }
}
