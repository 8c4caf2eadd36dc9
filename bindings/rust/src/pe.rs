//! The architectures of the guest.

#[derive(Clone, Copy, Debug, PartialEq, Eq)]
pub enum Architecture {
    X86,
    X64,
}

impl Architecture {
    pub fn width(self) -> usize {
        match self {
            Self::X64 => 8,
            Self::X86 => 4,
        }
    }

    pub(crate) fn word(self) -> u64 {
        match self {
            Self::X64 => 0,
            Self::X86 => 1,
        }
    }

    pub(crate) fn of(word: u64) -> Self {
        match word {
            0 => Self::X64,
            _ => Self::X86,
        }
    }
}
