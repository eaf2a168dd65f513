//! A chip under its driver, as a part. The driver knows the chip's geometry, and uses cycles and time alone.

use crate::chip::{Bus, Chip, FIRST, LONGEST_PROGRAM, LONGEST_SUSPENSION, SECOND};
use crate::geometry::{Block, Geometry};
use crate::part::{needs_erase, refuse, Cause, Fault, Part, Progress, Standing};

const TOGGLE: u8 = 0x40;
const FAILED: u8 = 0x20;

pub struct Driven<B> {
    bus: B,
    geometry: &'static Geometry,
    // The protected blocks, block b as bit b.
    guards: u32,
    standing: Standing,
}

/// What a status read says of an operation.
#[derive(Clone, Copy, PartialEq, Eq)]
enum Verdict {
    Busy,
    Done,
    Failed,
}

// Judges a read during an operation that is to leave `wanted` in the cell. DQ5 counts only while DQ7 is inverted.
fn judge(seen: u8, wanted: u8) -> Verdict {
    if (seen ^ wanted) & 0x80 == 0 {
        Verdict::Done
    } else if seen & FAILED != 0 {
        Verdict::Failed
    } else {
        Verdict::Busy
    }
}

impl<B: Bus> Driven<B> {
    /// Takes a chip of this geometry: resets it, and reads its guards in ID mode.
    pub fn new(bus: B, geometry: &'static Geometry) -> Driven<B> {
        let mut driven = Driven {
            bus,
            geometry,
            guards: 0,
            standing: Standing::Idle,
        };
        driven.bus.reset();
        driven.read_guards();
        driven
    }

    // The driver's own cycles lie inside the chip, and its waits are short: none of them is refused.
    fn put(&mut self, address: u32, byte: u8) {
        let _ = self.bus.write(address, byte);
    }

    fn see(&mut self, address: u32) -> u8 {
        self.bus.read(address).unwrap_or(0)
    }

    fn wait(&mut self, us: u32) {
        let _ = self.bus.pass(us);
    }

    fn unlock(&mut self) {
        self.put(FIRST, 0xAA);
        self.put(SECOND, 0x55);
    }

    fn command(&mut self, byte: u8) {
        self.unlock();
        self.put(FIRST, byte);
    }

    fn read_guards(&mut self) {
        self.command(0x90);
        for (number, block) in self.geometry.blocks.iter().enumerate() {
            if self.see(block.start + 2) == 1 {
                self.guards |= 1 << number;
            }
        }
        self.put(0, 0xF0);
    }

    fn is_guarded(&self, number: usize) -> bool {
        self.guards >> number & 1 == 1
    }

    fn start_of(&self, number: u32) -> u32 {
        self.geometry.blocks[number as usize].start
    }

    fn hides(&self, address: u32) -> bool {
        match self.standing {
            Standing::Idle => false,
            Standing::Running(_) => true,
            Standing::Suspended(number) => self.geometry.blocks[number as usize].contains(address),
        }
    }

    // Programs a byte, polling every microsecond, and tells whether it worked.
    fn program(&mut self, address: u32, byte: u8) -> bool {
        self.command(0xA0);
        self.put(address, byte);
        for _ in 0..LONGEST_PROGRAM {
            self.wait(1);
            match judge(self.see(address), byte) {
                Verdict::Busy => {}
                Verdict::Done => return true,
                Verdict::Failed => {
                    self.put(address, 0xF0);
                    return false;
                }
            }
        }
        false
    }

    // One read of a chip that was erasing the block that begins at an address.
    fn look(&mut self, start: u32) -> Verdict {
        let verdict = judge(self.see(start), 0xFF);
        if verdict == Verdict::Failed {
            self.put(start, 0xF0);
        }
        verdict
    }
}

impl Driven<Chip> {
    /// Puts a byte into the chip's memory.
    pub fn poke(&mut self, address: u32, byte: u8) {
        self.bus.poke(address, byte);
    }
}

impl<B: Bus> Part for Driven<B> {
    fn size(&self) -> u32 {
        self.geometry.size
    }

    fn count(&self) -> u32 {
        self.geometry.blocks.len() as u32
    }

    fn standing(&self) -> Standing {
        self.standing
    }

    fn block(&self, number: u32) -> Option<Block> {
        self.geometry.blocks.get(number as usize).copied()
    }

    fn guarded(&self, number: u32) -> bool {
        number < self.count() && self.is_guarded(number as usize)
    }

    fn clock(&self) -> u32 {
        self.bus.clock()
    }

    fn peek(&mut self, address: u32) -> Result<u8, Fault> {
        let seen = self.bus.read(address)?;
        if self.hides(address) {
            return refuse(Cause::ErasureInTheWay, address);
        }
        Ok(seen)
    }

    fn burn(&mut self, address: u32, byte: u8) -> Result<(), Fault> {
        let old = self.bus.read(address)?;
        if self.standing.stands() {
            return refuse(Cause::ErasureInTheWay, address);
        }
        if self.is_guarded(self.geometry.block_at(address)) {
            return refuse(Cause::Guarded, address);
        }
        if needs_erase(old, byte) {
            return refuse(Cause::NeedsErase, address);
        }
        if !self.program(address, byte) {
            return refuse(Cause::Worn, address);
        }
        Ok(())
    }

    fn begin(&mut self, number: u32) -> Result<(), Fault> {
        if number >= self.count() {
            return refuse(Cause::NoSuchBlock, number);
        }
        if self.standing.stands() {
            return refuse(Cause::ErasureInTheWay, number);
        }
        if self.is_guarded(number as usize) {
            return refuse(Cause::Guarded, number);
        }
        let start = self.start_of(number);
        self.command(0x80);
        self.unlock();
        self.put(start, 0x30);
        self.standing = Standing::Running(number);
        Ok(())
    }

    fn hold(&mut self) {
        let Standing::Running(number) = self.standing else {
            return;
        };
        self.put(0, 0xB0);
        for _ in 0..LONGEST_SUSPENSION {
            self.wait(1);
            if (self.see(0) ^ self.see(0)) & TOGGLE == 0 {
                break;
            }
        }
        self.standing = Standing::Suspended(number);
    }

    fn go_on(&mut self) {
        if let Standing::Suspended(number) = self.standing {
            self.put(0, 0x30);
            self.standing = Standing::Running(number);
        }
    }

    fn pass(&mut self, us: u32) -> Result<Progress, Fault> {
        self.bus.pass(us)?;
        let number = match self.standing {
            Standing::Idle => return Ok(Progress::Idle),
            Standing::Suspended(_) => return Ok(Progress::Suspended),
            Standing::Running(number) => number,
        };
        let verdict = self.look(self.start_of(number));
        if verdict == Verdict::Busy {
            return Ok(Progress::Running);
        }
        self.standing = Standing::Idle;
        Ok(if verdict == Verdict::Failed {
            Progress::Worn
        } else {
            Progress::Finished
        })
    }
}
