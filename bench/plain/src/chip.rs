//! A NOR flash chip as its bus sees it.

use crate::geometry::Geometry;
use crate::part::{check_time, needs_erase, refuse, Cause, Fault};

/// The longest time that a byte may take to program; also that after which a program fails.
pub const LONGEST_PROGRAM: u32 = 300;
/// The longest time that a block may take to erase; also that for each block after which an erase fails.
pub const LONGEST_ERASE: u32 = 10_000_000;
/// The longest time from the suspend command until a chip is suspended.
pub const LONGEST_SUSPENSION: u32 = 15;

/// The two addresses at which commands are written, in their low fifteen bits.
pub const FIRST: u32 = 0x5555;
pub const SECOND: u32 = 0x2AAA;

// A mask of all blocks.
const ALL: u32 = 0x7FF;
// Microseconds that more blocks may be added to an erase.
const WINDOW: u32 = 50;
// Microseconds that the chip is busy with a byte in a protected block.
const REFUSED_PROGRAM: u32 = 3;
// Microseconds that the erasing lasts where every selected block is protected.
const REFUSED_ERASE: u32 = 50;

/// What a driver has of a chip: cycles, time, the reset pin, and a count of the microseconds.
pub trait Bus {
    fn write(&mut self, address: u32, byte: u8) -> Result<(), Fault>;
    fn read(&mut self, address: u32) -> Result<u8, Fault>;
    fn pass(&mut self, us: u32) -> Result<(), Fault>;
    fn reset(&mut self);
    fn clock(&self) -> u32;
}

/// The numbers that a chip is made with.
#[derive(Clone, Copy, Debug)]
pub struct Setup {
    pub geometry: &'static Geometry,
    pub program: u32,
    pub erase: u32,
    pub suspend: u32,
    /// The protected and the worn blocks, block b as bit b.
    pub protected: u32,
    pub worn: u32,
}

impl Setup {
    /// How many bytes the chip has; none where there is no such chip.
    pub fn bytes(&self) -> Option<usize> {
        let fits = (1..=LONGEST_PROGRAM).contains(&self.program)
            && (1..=LONGEST_ERASE).contains(&self.erase)
            && (1..=LONGEST_SUSPENSION).contains(&self.suspend)
            && self.protected <= ALL
            && self.worn <= ALL;
        fits.then_some(self.geometry.size as usize)
    }
}

#[derive(Clone, Copy, PartialEq, Eq)]
enum Mode {
    Read,
    Id,
}

/// Which write of a command sequence comes next.
#[derive(Clone, Copy, PartialEq, Eq)]
enum Place {
    Start,
    Second,
    Command,
    Data,
    EraseStart,
    EraseSecond,
    EraseBlock,
}

#[derive(Clone, Copy)]
struct Program {
    address: u32,
    byte: u8,
    left: u32,
    toggle: bool,
}

#[derive(Clone, Copy, PartialEq, Eq)]
enum Phase {
    /// More blocks may be added; nothing is erased yet.
    Window,
    Erasing,
}

#[derive(Clone, Copy)]
struct Erase {
    phase: Phase,
    selected: u32,
    left: u32,
    toggle: bool,
}

#[derive(Clone, Copy)]
enum State {
    Ready(Mode, Place),
    Programming(Program),
    Erasing(Erase),
    /// Suspended after so many microseconds more.
    Suspending(Erase, u32),
    Suspended(Erase),
    /// The byte that was to be programmed, or FFh after an erase, and DQ6 of the next status read.
    Failed(u8, bool),
}

const READ_MODE: State = State::Ready(Mode::Read, Place::Start);

pub struct Chip {
    setup: Setup,
    cells: Vec<u8>,
    state: State,
    clock: u32,
}

fn status(byte: u8, toggle: bool, failed: bool, begun: bool) -> u8 {
    !byte & 0x80 | (toggle as u8) << 6 | (failed as u8) << 5 | (begun as u8) << 3
}

// A status read: the byte, and the toggle bit flips.
fn erase_status(erase: &mut Erase) -> u8 {
    let seen = status(0xFF, erase.toggle, false, erase.phase == Phase::Erasing);
    erase.toggle = !erase.toggle;
    seen
}

impl Chip {
    /// A chip on memory of as many bytes as `Setup::bytes` says.
    pub fn new(setup: Setup, cells: Vec<u8>) -> Chip {
        assert_eq!(Some(cells.len()), setup.bytes());
        Chip {
            setup,
            cells,
            state: READ_MODE,
            clock: 0,
        }
    }

    fn check(&self, address: u32) -> Result<(), Fault> {
        if address as usize >= self.cells.len() {
            return refuse(Cause::AddressOutside, address);
        }
        Ok(())
    }

    fn cell(&self, address: u32) -> u8 {
        self.cells[address as usize]
    }

    fn mask_of(&self, address: u32) -> u32 {
        1 << self.setup.geometry.block_at(address)
    }

    fn erasable(&self, selected: u32) -> u32 {
        selected & !self.setup.protected
    }

    fn fill(&mut self, mask: u32, byte: u8) {
        for (number, block) in self.setup.geometry.blocks.iter().enumerate() {
            if mask >> number & 1 == 1 {
                self.cells[block.range()].fill(byte);
            }
        }
    }

    fn begin_program(&self, address: u32, byte: u8) -> State {
        let block = self.mask_of(address);
        let left = if block & self.setup.protected != 0 {
            REFUSED_PROGRAM
        } else if block & self.setup.worn != 0 || needs_erase(self.cell(address), byte) {
            LONGEST_PROGRAM
        } else {
            self.setup.program
        };
        State::Programming(Program {
            address,
            byte,
            left,
            toggle: false,
        })
    }

    // The state after a write at some place of a sequence that began in `mode`.
    fn obey(&self, mode: Mode, place: Place, address: u32, byte: u8) -> State {
        let low = address & 0x7FFF;
        match (place, low, byte) {
            (Place::Data, _, _) => self.begin_program(address, byte),
            (_, _, 0xF0) => READ_MODE,
            (Place::Start, FIRST, 0xAA) => State::Ready(mode, Place::Second),
            (Place::Second, SECOND, 0x55) => State::Ready(mode, Place::Command),
            (Place::Command, FIRST, 0x90) => State::Ready(Mode::Id, Place::Start),
            (Place::Command, FIRST, 0xA0) => State::Ready(mode, Place::Data),
            (Place::Command, FIRST, 0x80) => State::Ready(mode, Place::EraseStart),
            (Place::EraseStart, FIRST, 0xAA) => State::Ready(mode, Place::EraseSecond),
            (Place::EraseSecond, SECOND, 0x55) => State::Ready(mode, Place::EraseBlock),
            (Place::EraseBlock, _, 0x30) => State::Erasing(Erase {
                phase: Phase::Window,
                selected: self.mask_of(address),
                left: WINDOW,
                toggle: false,
            }),
            _ => State::Ready(mode, Place::Start),
        }
    }

    fn interrupt(&self, erase: Erase, address: u32, byte: u8) -> State {
        match (erase.phase, byte) {
            (_, 0xB0) => State::Suspending(erase, self.setup.suspend),
            (Phase::Erasing, _) => State::Erasing(erase),
            (Phase::Window, 0x30) => State::Erasing(Erase {
                selected: erase.selected | self.mask_of(address),
                left: WINDOW,
                ..erase
            }),
            (Phase::Window, _) => READ_MODE,
        }
    }

    fn end_program(&mut self, program: Program) {
        let block = self.mask_of(program.address);
        if block & self.setup.protected != 0 {
            self.state = READ_MODE;
            return;
        }
        let mut failed = true;
        if block & self.setup.worn == 0 {
            let cell = &mut self.cells[program.address as usize];
            failed = needs_erase(*cell, program.byte);
            *cell &= program.byte;
        }
        self.state = if failed {
            State::Failed(program.byte, program.toggle)
        } else {
            READ_MODE
        };
    }

    fn end_erase_phase(&mut self, erase: Erase) {
        let blocks = self.erasable(erase.selected);
        let spoils = blocks & self.setup.worn != 0;
        match erase.phase {
            Phase::Window => {
                let each = if spoils {
                    LONGEST_ERASE
                } else {
                    self.setup.erase
                };
                let left = match blocks.count_ones() {
                    0 => REFUSED_ERASE,
                    count => count * each,
                };
                self.state = State::Erasing(Erase {
                    phase: Phase::Erasing,
                    left,
                    ..erase
                });
            }
            Phase::Erasing if spoils => self.state = State::Failed(0xFF, erase.toggle),
            Phase::Erasing => {
                self.fill(blocks, 0xFF);
                self.state = READ_MODE;
            }
        }
    }

    // Ends what the chip is doing.
    #[cold]
    fn end(&mut self) {
        match self.state {
            State::Programming(program) => self.end_program(program),
            State::Erasing(erase) => self.end_erase_phase(erase),
            State::Suspending(erase, _) => self.state = State::Suspended(erase),
            _ => {}
        }
    }

    fn run(&mut self, us: u32) {
        let mut rest = us;
        while rest > 0 {
            let left = match &mut self.state {
                State::Programming(program) => &mut program.left,
                State::Erasing(erase) => &mut erase.left,
                State::Suspending(_, wait) => wait,
                _ => return,
            };
            if rest < *left {
                *left -= rest;
                return;
            }
            rest -= *left;
            self.end();
        }
    }
}

impl Chip {
    /// Puts a byte into the memory.
    pub fn poke(&mut self, address: u32, byte: u8) {
        self.cells[address as usize] = byte;
    }
}

impl Bus for Chip {
    fn write(&mut self, address: u32, byte: u8) -> Result<(), Fault> {
        self.check(address)?;
        self.state = match self.state {
            State::Ready(mode, place) => self.obey(mode, place, address, byte),
            State::Erasing(erase) => self.interrupt(erase, address, byte),
            State::Suspended(erase) if byte == 0x30 => State::Erasing(erase),
            State::Failed(..) if byte == 0xF0 => READ_MODE,
            busy => busy,
        };
        Ok(())
    }

    fn read(&mut self, address: u32) -> Result<u8, Fault> {
        self.check(address)?;
        Ok(match &mut self.state {
            State::Ready(Mode::Read, _) => self.cell(address),
            State::Ready(Mode::Id, _) => match address & 0x43 {
                0 => 0x98,
                1 => self.setup.geometry.code,
                2 => (self.mask_of(address) & self.setup.protected != 0) as u8,
                _ => 0,
            },
            State::Programming(program) => {
                let seen = status(program.byte, program.toggle, false, false);
                program.toggle = !program.toggle;
                seen
            }
            State::Erasing(erase) | State::Suspending(erase, _) => erase_status(erase),
            State::Suspended(erase) => {
                let selected = erase.selected;
                if self.mask_of(address) & selected != 0 {
                    0x80
                } else {
                    self.cell(address)
                }
            }
            State::Failed(byte, toggle) => {
                let seen = status(*byte, *toggle, true, true);
                *toggle = !*toggle;
                seen
            }
        })
    }

    fn pass(&mut self, us: u32) -> Result<(), Fault> {
        check_time(us)?;
        self.run(us);
        self.clock = self.clock.wrapping_add(us);
        Ok(())
    }

    fn reset(&mut self) {
        match self.state {
            State::Programming(program) => {
                let block = self.mask_of(program.address);
                if block & (self.setup.protected | self.setup.worn) == 0 {
                    self.cells[program.address as usize] &= program.byte;
                }
            }
            State::Erasing(erase) | State::Suspending(erase, _) | State::Suspended(erase)
                if erase.phase == Phase::Erasing =>
            {
                self.fill(self.erasable(erase.selected) & !self.setup.worn, 0x00);
            }
            _ => {}
        }
        self.state = READ_MODE;
    }

    fn clock(&self) -> u32 {
        self.clock
    }
}
