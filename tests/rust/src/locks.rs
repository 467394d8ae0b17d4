//! The locks that a thread has, and what may stand beside them.

/// The locks that a thread holds and those that it shares, one bit each. A lock can be had
/// both ways.
#[derive(Clone, Copy, Debug, Default, PartialEq, Eq, PartialOrd, Ord, Hash)]
pub struct Locks {
    pub held: u32,
    pub shared: u32,
}

impl Locks {
    pub const NONE: Locks = Locks { held: 0, shared: 0 };

    /// A lock had by a hold or by a share.
    pub fn one(lock: u32, by_hold: bool) -> Locks {
        match by_hold {
            true => Locks { held: 1 << lock, shared: 0 },
            false => Locks { held: 0, shared: 1 << lock },
        }
    }

    /// The locks had in any way.
    pub fn any(self) -> u32 {
        self.held | self.shared
    }

    /// Those of both, each in the ways that it is had.
    pub fn with(self, other: Locks) -> Locks {
        Locks { held: self.held | other.held, shared: self.shared | other.shared }
    }

    /// Those that another has not, or not in that way.
    pub fn without(self, other: Locks) -> Locks {
        Locks { held: self.held & !other.held, shared: self.shared & !other.shared }
    }

    /// Whether another thread may have these too: no lock is held by the one that the other
    /// has in any way.
    pub fn beside(self, other: Locks) -> bool {
        self.held & other.any() == 0 && other.held & self.any() == 0
    }

    pub fn joined(all: impl Iterator<Item = Locks>) -> Locks {
        all.fold(Locks::NONE, Locks::with)
    }
}
