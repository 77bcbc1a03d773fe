//! How often a script for `rig` does what makes it long.

/// How often a script does what makes it long.
#[derive(Clone, Copy)]
pub struct Pace {
    /// Kinds of scenes to choose from. Those from 21 on lend memory or make it fresh.
    pub scenes: usize,
    /// Memory is shown after one call in so many.
    pub memory: usize,
    /// The room is shown after one call in so many.
    pub room: usize,
    /// A message has an ample room once in so many times, else mostly one about as long as its
    /// reply.
    pub ample: usize,
    /// A scene with another profile lends memory with its octet once in so many times, else it makes
    /// memory fresh.
    pub exchanged: usize,
}

/// Lends and shows as often as calls are made.
pub const OFTEN: Pace = Pace {
    scenes: 25,
    memory: 3,
    room: 3,
    ample: 2,
    exchanged: 2,
};

/// Makes more calls than it lends and shows, and shows memory more often than rooms.
pub const SELDOM: Pace = Pace {
    scenes: 22,
    memory: 5,
    room: 36,
    ample: 3,
    exchanged: 5,
};
