//! Within which bounds all orders of events are gone through.

/// How many ballots are taken by ticks, calls made, and falls; and after how many states to stop.
#[derive(Clone, Copy, Debug)]
pub struct Bounds {
    pub ballots: u8,
    pub calls: u8,
    pub falls: u8,
    /// no version is above it
    pub places: u64,
    /// bundles and replies go over the wire, too; or else a copy proposes only calls of its own
    pub bundles: bool,
    pub states: usize,
}

const fn bounds(ballots: u8, calls: u8, falls: u8, places: u64, bundles: bool) -> Bounds {
    Bounds { ballots, calls, falls, places, bundles, states: usize::MAX }
}

/// In seconds.
pub const SHORT: &[Bounds] = &[bounds(1, 2, 0, 9, false), bounds(2, 1, 0, 9, false), bounds(1, 1, 0, 9, true)];

/// In a minute.
pub const LONG: &[Bounds] = &[
    bounds(1, 2, 1, 9, false),
    bounds(2, 1, 1, 9, false),
    bounds(2, 2, 1, 1, false),
    bounds(2, 3, 0, 1, false),
    bounds(3, 1, 0, 9, false),
    bounds(1, 1, 1, 9, true),
    bounds(2, 1, 0, 9, true),
];

/// Two ballots, two calls, two places: some minutes.
pub const LONGEST: &[Bounds] = &[bounds(2, 2, 0, 9, false)];

/// Bounds within which mistakes are looked for.
pub const LOOKS: &[Bounds] =
    &[bounds(2, 2, 0, 1, false), bounds(1, 2, 1, 9, false), bounds(2, 1, 1, 9, false), bounds(1, 1, 1, 9, true)];
