//! The fitted list of relay settings, and what is chosen from it.

use crate::Rect;

/// The most records of a list.
pub const MAX_SETTINGS: usize = 64;

/// The numbers of a choice.
pub const CHOICE_LENGTH: usize = 3;

/// A relay setting: the box that its load must stay in, and its number. It is laid out as the header's
/// struct is, so that a list is lent as it stands.
#[repr(C)]
#[derive(Clone, Copy, PartialEq, Eq, Debug, Default)]
pub struct Setting {
    pub limits: Rect,
    pub number: u16,
}

/// The header's struct has 20 bytes, and the alignment of a side.
const _: () = assert!(size_of::<Setting>() == 20 && align_of::<Setting>() == align_of::<i32>());

/// What was found in a list, as the header numbers it.
const FITS: u32 = 1;
const NONE_FITS: u32 = 2;

/// What was chosen from a list.
#[derive(Clone, Copy, PartialEq, Eq, Debug)]
pub enum Choice {
    /// The first record whose walk ends Inside: its index and its setting number.
    Fits { index: usize, number: u16 },
    /// No record's walk ends Inside.
    NoneFits,
}

impl Choice {
    /// The choice of a call that was not refused, from its three numbers.
    #[inline]
    pub(crate) fn of([found, index, number]: [u32; CHOICE_LENGTH]) -> Choice {
        match (found, u16::try_from(number)) {
            (FITS, Ok(number)) => Choice::Fits {
                index: index as usize,
                number,
            },
            (NONE_FITS, _) => Choice::NoneFits,
            _ => unreachable!("the call chose {found}, {index}, {number}, which is no choice"),
        }
    }
}
