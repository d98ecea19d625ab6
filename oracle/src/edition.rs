//! Editions of requests and sheets: 1 is document 01's, 2 has the card's name
//! (change request 2). Sampling writes the newest; Check takes every one.

/// The bytes of a request of edition 1, with which every request starts.
pub const CORE: usize = 264;
/// The bytes of a name.
pub const NAME: usize = 32;
/// The bytes of a trailer, the same in every edition.
pub const TRAILER: usize = 16;

/// An edition, the earlier before the later.
#[derive(Clone, Copy, Debug, PartialEq, Eq, PartialOrd, Ord)]
pub enum Edition {
    One,
    Two,
}

impl Edition {
    pub const ALL: [Self; 2] = [Self::One, Self::Two];
    /// The edition that Sampling writes.
    pub const NEWEST: Self = Self::Two;

    /// The edition of a trailer's number.
    pub fn numbered(number: u16) -> Option<Self> {
        match number {
            1 => Some(Self::One),
            2 => Some(Self::Two),
            _ => None,
        }
    }

    /// The number in a trailer.
    pub const fn number(self) -> u16 {
        match self {
            Self::One => 1,
            Self::Two => 2,
        }
    }

    /// The bytes of a request.
    pub const fn request_size(self) -> usize {
        match self {
            Self::One => CORE,
            Self::Two => CORE + NAME,
        }
    }

    /// The bytes of a sheet beside its angles.
    pub const fn frame(self) -> usize {
        self.request_size() + TRAILER
    }
}
