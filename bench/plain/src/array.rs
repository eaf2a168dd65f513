//! Equal blocks in plain memory. A burn takes 1 microsecond, an erasure the next that passes, a hold none.

use crate::geometry::Block;
use crate::part::{check_time, needs_erase, refuse, Cause, Fault, Part, Progress, Standing};

pub struct Array {
    cells: Vec<u8>,
    count: u32,
    width: u32,
    standing: Standing,
    clock: u32,
}

impl Array {
    /// How many bytes an array has; none where there is no such array.
    pub fn bytes(count: u32, width: u32) -> Option<usize> {
        let fits = (1..=256).contains(&count) && (64..=65536).contains(&width);
        fits.then(|| count as usize * width as usize)
    }

    /// An array on memory of as many bytes as `bytes` says.
    pub fn new(count: u32, width: u32, cells: Vec<u8>) -> Array {
        assert_eq!(Some(cells.len()), Array::bytes(count, width));
        Array {
            cells,
            count,
            width,
            standing: Standing::Idle,
            clock: 0,
        }
    }

    /// Puts a byte into the memory.
    pub fn poke(&mut self, address: u32, byte: u8) {
        self.cells[address as usize] = byte;
    }

    fn at(&self, number: u32) -> Block {
        Block {
            start: number * self.width,
            size: self.width,
        }
    }

    fn hides(&self, address: u32) -> bool {
        match self.standing {
            Standing::Idle => false,
            Standing::Running(_) => true,
            Standing::Suspended(number) => self.at(number).contains(address),
        }
    }
}

impl Part for Array {
    fn size(&self) -> u32 {
        self.cells.len() as u32
    }

    fn count(&self) -> u32 {
        self.count
    }

    fn standing(&self) -> Standing {
        self.standing
    }

    fn block(&self, number: u32) -> Option<Block> {
        (number < self.count).then(|| self.at(number))
    }

    fn guarded(&self, _number: u32) -> bool {
        false
    }

    fn clock(&self) -> u32 {
        self.clock
    }

    fn peek(&mut self, address: u32) -> Result<u8, Fault> {
        match self.cells.get(address as usize) {
            None => refuse(Cause::AddressOutside, address),
            Some(_) if self.hides(address) => refuse(Cause::ErasureInTheWay, address),
            Some(&cell) => Ok(cell),
        }
    }

    fn burn(&mut self, address: u32, byte: u8) -> Result<(), Fault> {
        let Some(cell) = self.cells.get_mut(address as usize) else {
            return refuse(Cause::AddressOutside, address);
        };
        if self.standing.stands() {
            return refuse(Cause::ErasureInTheWay, address);
        }
        if needs_erase(*cell, byte) {
            return refuse(Cause::NeedsErase, address);
        }
        *cell = byte;
        self.clock = self.clock.wrapping_add(1);
        Ok(())
    }

    fn begin(&mut self, number: u32) -> Result<(), Fault> {
        if number >= self.count {
            return refuse(Cause::NoSuchBlock, number);
        }
        if self.standing.stands() {
            return refuse(Cause::ErasureInTheWay, number);
        }
        self.standing = Standing::Running(number);
        Ok(())
    }

    fn hold(&mut self) {
        if let Standing::Running(number) = self.standing {
            self.standing = Standing::Suspended(number);
        }
    }

    fn go_on(&mut self) {
        if let Standing::Suspended(number) = self.standing {
            self.standing = Standing::Running(number);
        }
    }

    fn pass(&mut self, us: u32) -> Result<Progress, Fault> {
        check_time(us)?;
        self.clock = self.clock.wrapping_add(us);
        Ok(match self.standing {
            Standing::Idle => Progress::Idle,
            Standing::Suspended(_) => Progress::Suspended,
            Standing::Running(_) if us == 0 => Progress::Running,
            Standing::Running(number) => {
                let range = self.at(number).range();
                self.cells[range].fill(0xFF);
                self.standing = Standing::Idle;
                Progress::Finished
            }
        })
    }
}
