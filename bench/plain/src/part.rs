//! Flash memory as a console sees it.

use crate::geometry::Block;

/// Why a call was refused, by the numbers that the documents give.
#[derive(Clone, Copy, Debug, PartialEq, Eq)]
#[repr(u8)]
pub enum Cause {
    AddressOutside = 1,
    NoSuchBlock = 2,
    TimeTooLong = 3,
    UnfitMaking = 4,
    ErasureInTheWay = 5,
    Guarded = 6,
    NeedsErase = 7,
    Worn = 8,
    OutOfTurn = 9,
    UnfitBooks = 10,
    NoReadableBook = 11,
    PositionOutside = 12,
    StopOutside = 13,
    SpareSpoilt = 14,
}

/// A refusal of a chip or a part: the cause, and the address, block or time that was given, or 0.
#[derive(Clone, Copy, Debug, PartialEq, Eq)]
pub struct Fault {
    pub cause: Cause,
    pub place: u32,
}

pub fn refuse<T>(cause: Cause, place: u32) -> Result<T, Fault> {
    Err(Fault { cause, place })
}

/// The longest time, in microseconds, that may pass in one call.
pub const LONGEST_PASS: u32 = 1_000_000_000;

pub fn check_time(us: u32) -> Result<(), Fault> {
    if us > LONGEST_PASS {
        return refuse(Cause::TimeTooLong, us);
    }
    Ok(())
}

/// What a pass found.
#[derive(Clone, Copy, Debug, PartialEq, Eq)]
pub enum Progress {
    Idle,
    Running,
    Suspended,
    /// This pass ended the erasure.
    Finished,
    /// This pass ended the erasure in a worn block, whose cells are as they were.
    Worn,
}

/// Which erasure stands, and in which block.
#[derive(Clone, Copy, Debug, PartialEq, Eq)]
pub enum Standing {
    Idle,
    Running(u32),
    Suspended(u32),
}

impl Standing {
    pub fn stands(self) -> bool {
        self != Standing::Idle
    }

    pub fn runs(self) -> bool {
        matches!(self, Standing::Running(_))
    }

    /// The same standing, its block so many numbers higher.
    pub fn raised(self, by: u32) -> Standing {
        match self {
            Standing::Idle => Standing::Idle,
            Standing::Running(block) => Standing::Running(block + by),
            Standing::Suspended(block) => Standing::Suspended(block + by),
        }
    }
}

/// Whether a byte has a 1 where the cell has a 0.
pub fn needs_erase(cell: u8, byte: u8) -> bool {
    cell & byte != byte
}

pub trait Part {
    fn size(&self) -> u32;

    /// How many blocks there are.
    fn count(&self) -> u32;

    fn standing(&self) -> Standing;

    fn block(&self, number: u32) -> Option<Block>;

    /// Whether a block can be neither burnt nor erased.
    fn guarded(&self, number: u32) -> bool;

    /// The microseconds that have passed, modulo 2^32.
    fn clock(&self) -> u32;

    fn peek(&mut self, address: u32) -> Result<u8, Fault>;

    /// Burns a byte into a cell, which can only turn bits from 1 to 0.
    fn burn(&mut self, address: u32, byte: u8) -> Result<(), Fault>;

    /// Begins the erasure of a block.
    fn begin(&mut self, number: u32) -> Result<(), Fault>;

    /// Makes a running erasure stand still.
    fn hold(&mut self);

    /// Lets a held erasure go on.
    fn go_on(&mut self);

    fn pass(&mut self, us: u32) -> Result<Progress, Fault>;
}
