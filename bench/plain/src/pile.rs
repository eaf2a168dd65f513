//! Parts end to end.

use crate::array::Array;
use crate::chip::Chip;
use crate::driver::Driven;
use crate::geometry::Block;
use crate::part::{refuse, Cause, Fault, Part, Progress, Standing};

const MOST_BYTES: u32 = 16_777_216;
const MOST_BLOCKS: u32 = 1024;

/// Two parts end to end. It is dead, without blocks and cells, where the two are too large together; time passes on it all the same.
pub struct Joined {
    first: Pile,
    second: Pile,
    live: bool,
}

/// Whatever a script can name.
pub enum Pile {
    Array(Array),
    Chip(Driven<Chip>),
    Joined(Box<Joined>),
}

// Does something on one side, and lets the time that it takes pass on the other.
fn beside<T>(busy: &mut Pile, idle: &mut Pile, act: impl FnOnce(&mut Pile) -> T) -> T {
    let before = busy.clock();
    let answer = act(busy);
    let _ = idle.pass(busy.clock().wrapping_sub(before));
    answer
}

// The same answer, with the place that the caller gave.
fn placed<T>(answer: Result<T, Fault>, place: u32) -> Result<T, Fault> {
    answer.map_err(|fault| Fault { place, ..fault })
}

impl Joined {
    /// Puts the second part, on which no erasure stands, behind the first.
    pub fn new(first: Pile, second: Pile) -> Joined {
        let live = first.size() + second.size() <= MOST_BYTES
            && first.count() + second.count() <= MOST_BLOCKS;
        Joined {
            first,
            second,
            live,
        }
    }
}

impl Joined {
    // Puts a byte into the memory.
    fn poke(&mut self, address: u32, byte: u8) {
        match address.checked_sub(self.first.size()) {
            None => self.first.poke(address, byte),
            Some(inner) => self.second.poke(inner, byte),
        }
    }
}

impl Pile {
    /// Puts a byte into the memory on which the part is made, at an address inside.
    pub fn poke(&mut self, address: u32, byte: u8) {
        match self {
            Pile::Array(array) => array.poke(address, byte),
            Pile::Chip(chip) => chip.poke(address, byte),
            Pile::Joined(joined) => joined.poke(address, byte),
        }
    }
}

impl Part for Joined {
    fn size(&self) -> u32 {
        if self.live {
            self.first.size() + self.second.size()
        } else {
            0
        }
    }

    fn count(&self) -> u32 {
        if self.live {
            self.first.count() + self.second.count()
        } else {
            0
        }
    }

    fn standing(&self) -> Standing {
        match self.first.standing() {
            Standing::Idle => self.second.standing().raised(self.first.count()),
            standing => standing,
        }
    }

    fn block(&self, number: u32) -> Option<Block> {
        if !self.live {
            return None;
        }
        let Some(inner) = number.checked_sub(self.first.count()) else {
            return self.first.block(number);
        };
        let block = self.second.block(inner)?;
        Some(Block {
            start: block.start + self.first.size(),
            ..block
        })
    }

    fn guarded(&self, number: u32) -> bool {
        self.live
            && match number.checked_sub(self.first.count()) {
                None => self.first.guarded(number),
                Some(inner) => self.second.guarded(inner),
            }
    }

    fn clock(&self) -> u32 {
        self.first.clock()
    }

    fn peek(&mut self, address: u32) -> Result<u8, Fault> {
        if address >= self.size() {
            return refuse(Cause::AddressOutside, address);
        }
        match address.checked_sub(self.first.size()) {
            None if self.second.standing().runs() => refuse(Cause::ErasureInTheWay, address),
            None => self.first.peek(address),
            Some(_) if self.first.standing().runs() => refuse(Cause::ErasureInTheWay, address),
            Some(inner) => placed(self.second.peek(inner), address),
        }
    }

    fn burn(&mut self, address: u32, byte: u8) -> Result<(), Fault> {
        if address >= self.size() {
            return refuse(Cause::AddressOutside, address);
        }
        let Joined { first, second, .. } = self;
        match address.checked_sub(first.size()) {
            None if second.standing().stands() => refuse(Cause::ErasureInTheWay, address),
            None => beside(first, second, |side| side.burn(address, byte)),
            Some(_) if first.standing().stands() => refuse(Cause::ErasureInTheWay, address),
            Some(inner) => beside(second, first, |side| {
                placed(side.burn(inner, byte), address)
            }),
        }
    }

    fn begin(&mut self, number: u32) -> Result<(), Fault> {
        if number >= self.count() {
            return refuse(Cause::NoSuchBlock, number);
        }
        match number.checked_sub(self.first.count()) {
            None if self.second.standing().stands() => refuse(Cause::ErasureInTheWay, number),
            None => self.first.begin(number),
            Some(_) if self.first.standing().stands() => refuse(Cause::ErasureInTheWay, number),
            Some(inner) => placed(self.second.begin(inner), number),
        }
    }

    fn hold(&mut self) {
        let Joined { first, second, .. } = self;
        if first.standing().stands() {
            beside(first, second, Pile::hold);
        } else {
            beside(second, first, Pile::hold);
        }
    }

    fn go_on(&mut self) {
        self.first.go_on();
        self.second.go_on();
    }

    fn pass(&mut self, us: u32) -> Result<Progress, Fault> {
        let erasing = self.first.standing().stands();
        let first = self.first.pass(us);
        let second = self.second.pass(us);
        if erasing {
            first
        } else {
            second
        }
    }
}

macro_rules! each {
    ($pile:expr, $part:ident => $work:expr) => {
        match $pile {
            Pile::Array($part) => $work,
            Pile::Chip($part) => $work,
            Pile::Joined($part) => $work,
        }
    };
}

impl Part for Pile {
    fn size(&self) -> u32 {
        each!(self, part => part.size())
    }

    fn count(&self) -> u32 {
        each!(self, part => part.count())
    }

    fn standing(&self) -> Standing {
        each!(self, part => part.standing())
    }

    fn block(&self, number: u32) -> Option<Block> {
        each!(self, part => part.block(number))
    }

    fn guarded(&self, number: u32) -> bool {
        each!(self, part => part.guarded(number))
    }

    fn clock(&self) -> u32 {
        each!(self, part => part.clock())
    }

    fn peek(&mut self, address: u32) -> Result<u8, Fault> {
        each!(self, part => part.peek(address))
    }

    fn burn(&mut self, address: u32, byte: u8) -> Result<(), Fault> {
        each!(self, part => part.burn(address, byte))
    }

    fn begin(&mut self, number: u32) -> Result<(), Fault> {
        each!(self, part => part.begin(number))
    }

    fn hold(&mut self) {
        each!(self, part => part.hold())
    }

    fn go_on(&mut self) {
        each!(self, part => part.go_on())
    }

    fn pass(&mut self, us: u32) -> Result<Progress, Fault> {
        each!(self, part => part.pass(us))
    }
}
