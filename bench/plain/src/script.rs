//! Scripts, and what can be wrong with one.

use crate::array::Array;
use crate::chip::{Chip, Setup};
use crate::driver::Driven;
use crate::geometry::{Geometry, B004, BENCH, T004};
use crate::part::Part;
use crate::pile::{Joined, Pile};
use std::fmt;

/// The most parts that are joined to one.
const MOST_PARTS: usize = 4;

/// What is wrong with a line. All texts are in `Display` below.
#[derive(Clone, Copy, Debug, PartialEq, Eq)]
pub enum Complaint {
    NotPrintable,
    UnknownWord,
    NoPiece,
    UnknownPiece,
    NoGeometry,
    UnknownGeometry,
    NoNumber,
    BadNumber,
    TooManyWords,
    TooManyPieces,
    QuickTwice,
    SlowTwice,
    TooEarly,
    NoQuick,
    NoSlow,
    NoConsole,
    UnknownConsole,
    CellsOutOfPlace,
    OutsidePart,
    Unfit,
    NoMemory,
}

impl fmt::Display for Complaint {
    fn fmt(&self, f: &mut fmt::Formatter<'_>) -> fmt::Result {
        f.write_str(match self {
            Complaint::NotPrintable => "not printable ASCII",
            Complaint::UnknownWord => "unknown word",
            Complaint::NoPiece => "a part is missing",
            Complaint::UnknownPiece => "a part is a chip or an array",
            Complaint::NoGeometry => "a geometry is missing",
            Complaint::UnknownGeometry => "unknown geometry",
            Complaint::NoNumber => "a number is missing",
            Complaint::BadNumber => "a number is too large or no number",
            Complaint::TooManyWords => "too many words",
            Complaint::TooManyPieces => "at most four parts",
            Complaint::QuickTwice => "quick is named twice",
            Complaint::SlowTwice => "slow is named twice",
            Complaint::TooEarly => "a call before quick and slow",
            Complaint::NoQuick => "quick is missing",
            Complaint::NoSlow => "slow is missing",
            Complaint::NoConsole => "quick or slow is missing",
            Complaint::UnknownConsole => "a console is quick or slow",
            Complaint::CellsOutOfPlace => "cells out of place",
            Complaint::OutsidePart => "an address outside the part",
            Complaint::Unfit => "refused 4: a number of the part is outside its limits",
            Complaint::NoMemory => "there is no memory for the part",
        })
    }
}

/// A line that cannot be read.
#[derive(Clone, Copy, Debug, PartialEq, Eq)]
pub struct Unreadable {
    pub line: usize,
    pub complaint: Complaint,
}

impl fmt::Display for Unreadable {
    fn fmt(&self, f: &mut fmt::Formatter<'_>) -> fmt::Result {
        write!(f, "line {}: {}", self.line, self.complaint)
    }
}

/// The blocks on which the two consoles are opened.
#[derive(Clone, Copy, Debug, PartialEq, Eq)]
pub struct Seats {
    pub quick: [u32; 2],
    pub slow: [u32; 2],
}

#[derive(Clone, Copy, Debug, PartialEq, Eq)]
pub enum Call {
    Open(Seats),
    Set { position: u32, stops: u64 },
    Clear { position: u32 },
    Recall { position: u32 },
    Next { position: u32 },
    Wait { us: u32 },
    Quiet,
    Anew,
}

/// A call with its line, comment and outer spaces off.
pub struct Step<'a> {
    pub call: Call,
    pub text: &'a [u8],
}

pub struct Script<'a> {
    pub quick: Pile,
    pub slow: Pile,
    pub steps: Vec<Step<'a>>,
}

struct Words<'a> {
    rest: &'a [u8],
}

impl<'a> Words<'a> {
    fn next(&mut self) -> Option<&'a [u8]> {
        let start = self.rest.iter().position(|&byte| byte != b' ')?;
        let rest = &self.rest[start..];
        let end = rest
            .iter()
            .position(|&byte| byte == b' ')
            .unwrap_or(rest.len());
        let (word, rest) = rest.split_at(end);
        self.rest = rest;
        Some(word)
    }

    fn must(&mut self, missing: Complaint) -> Result<&'a [u8], Complaint> {
        self.next().ok_or(missing)
    }

    fn number(&mut self) -> Result<u32, Complaint> {
        self.long()?.try_into().map_err(|_| Complaint::BadNumber)
    }

    fn byte(&mut self) -> Result<u8, Complaint> {
        byte(self.must(Complaint::NoNumber)?)
    }

    fn long(&mut self) -> Result<u64, Complaint> {
        number(self.must(Complaint::NoNumber)?)
    }

    fn end(&mut self) -> Result<(), Complaint> {
        self.next().map_or(Ok(()), |_| Err(Complaint::TooManyWords))
    }
}

fn number(word: &[u8]) -> Result<u64, Complaint> {
    let (digits, radix) = match word.strip_prefix(b"0x") {
        Some(digits) => (digits, 16),
        None => (word, 10),
    };
    if digits.is_empty() {
        return Err(Complaint::BadNumber);
    }
    let mut value = Some(0u64);
    for &byte in digits {
        let digit = char::from(byte)
            .to_digit(radix)
            .ok_or(Complaint::BadNumber)?;
        value = value
            .and_then(|value| value.checked_mul(radix.into()))
            .and_then(|value| value.checked_add(digit.into()));
    }
    value.ok_or(Complaint::BadNumber)
}

fn byte(word: &[u8]) -> Result<u8, Complaint> {
    number(word)?.try_into().map_err(|_| Complaint::BadNumber)
}

// One part, whose numbers are not checked yet.
enum Plan {
    Chip(Setup),
    Array { count: u32, width: u32 },
}

fn geometry(word: &[u8]) -> Result<&'static Geometry, Complaint> {
    match word {
        b"t004" => Ok(&T004),
        b"b004" => Ok(&B004),
        b"bench" => Ok(&BENCH),
        _ => Err(Complaint::UnknownGeometry),
    }
}

fn blank(bytes: Option<usize>) -> Result<Vec<u8>, Complaint> {
    let bytes = bytes.ok_or(Complaint::Unfit)?;
    let mut cells = Vec::new();
    cells
        .try_reserve_exact(bytes)
        .map_err(|_| Complaint::NoMemory)?;
    cells.resize(bytes, 0xFF);
    Ok(cells)
}

impl Plan {
    fn fits(&self) -> bool {
        match *self {
            Plan::Chip(setup) => setup.bytes().is_some(),
            Plan::Array { count, width } => Array::bytes(count, width).is_some(),
        }
    }

    fn make(&self) -> Result<Pile, Complaint> {
        match *self {
            Plan::Chip(setup) => {
                let chip = Chip::new(setup, blank(setup.bytes())?);
                Ok(Pile::Chip(Driven::new(chip, setup.geometry)))
            }
            Plan::Array { count, width } => {
                let cells = blank(Array::bytes(count, width))?;
                Ok(Pile::Array(Array::new(count, width, cells)))
            }
        }
    }
}

// A chip's numbers, and the word behind them.
fn chip<'a>(words: &mut Words<'a>) -> Result<(Plan, Option<&'a [u8]>), Complaint> {
    let mut setup = Setup {
        geometry: geometry(words.must(Complaint::NoGeometry)?)?,
        program: words.number()?,
        erase: words.number()?,
        suspend: words.number()?,
        protected: 0,
        worn: 0,
    };
    let mut next = words.next();
    if next == Some(b"protect") {
        setup.protected = words.number()?;
        next = words.next();
    }
    if next == Some(b"worn") {
        setup.worn = words.number()?;
        next = words.next();
    }
    Ok((Plan::Chip(setup), next))
}

fn array<'a>(words: &mut Words<'a>) -> Result<(Plan, Option<&'a [u8]>), Complaint> {
    let plan = Plan::Array {
        count: words.number()?,
        width: words.number()?,
    };
    Ok((plan, words.next()))
}

// The parts that the rest of a line names, left to right. There is one at least.
fn plans(words: &mut Words) -> Result<Vec<Plan>, Complaint> {
    let mut plans = Vec::with_capacity(MOST_PARTS);
    loop {
        let (plan, next) = match words.must(Complaint::NoPiece)? {
            b"chip" => chip(words)?,
            b"array" => array(words)?,
            _ => return Err(Complaint::UnknownPiece),
        };
        plans.push(plan);
        match next {
            None => return Ok(plans),
            Some(b"+") if plans.len() == MOST_PARTS => return Err(Complaint::TooManyPieces),
            Some(b"+") => {}
            Some(_) => return Err(Complaint::TooManyWords),
        }
    }
}

// Bytes that are in a part's memory when it is made, and the number of their line.
struct Cells {
    line: usize,
    address: u32,
    bytes: Vec<u8>,
}

// A part that a line names: what it is to be made of, the number of the line, and what is in its memory.
struct Named {
    line: usize,
    plans: Vec<Plan>,
    cells: Vec<Cells>,
}

impl Cells {
    fn put(&self, pile: &mut Pile) -> Result<(), Unreadable> {
        let mut address = u64::from(self.address);
        for &byte in &self.bytes {
            if address >= u64::from(pile.size()) {
                return Err(Unreadable {
                    line: self.line,
                    complaint: Complaint::OutsidePart,
                });
            }
            pile.poke(address as u32, byte);
            address += 1;
        }
        Ok(())
    }
}

impl Named {
    fn make(self) -> Result<Pile, Unreadable> {
        let line = self.line;
        let mut pile = None;
        // Every number is looked at before memory is asked for.
        if self.plans.iter().any(|plan| !plan.fits()) {
            let complaint = Complaint::Unfit;
            return Err(Unreadable { line, complaint });
        }
        for plan in &self.plans {
            let next = plan
                .make()
                .map_err(|complaint| Unreadable { line, complaint })?;
            pile = Some(match pile {
                None => next,
                Some(pile) => Pile::Joined(Box::new(Joined::new(pile, next))),
            });
        }
        let mut pile = pile.expect("there is one part at least");
        for cells in &self.cells {
            cells.put(&mut pile)?;
        }
        Ok(pile)
    }
}

// Keeps what a line names, which is to be the first of its name.
fn name_part(
    line: usize,
    words: &mut Words,
    part: &mut Option<Named>,
    twice: Complaint,
) -> Result<(), Complaint> {
    let plans = plans(words)?;
    if part.is_some() {
        return Err(twice);
    }
    let cells = Vec::new();
    *part = Some(Named { line, plans, cells });
    Ok(())
}

fn call(name: &[u8], words: &mut Words) -> Result<Call, Complaint> {
    let call = match name {
        b"open" => Call::Open(Seats {
            quick: [words.number()?, words.number()?],
            slow: [words.number()?, words.number()?],
        }),
        b"set" => Call::Set {
            position: words.number()?,
            stops: words.long()?,
        },
        b"clear" => Call::Clear {
            position: words.number()?,
        },
        b"recall" => Call::Recall {
            position: words.number()?,
        },
        b"next" => Call::Next {
            position: words.number()?,
        },
        b"wait" => Call::Wait {
            us: words.number()?,
        },
        b"quiet" => Call::Quiet,
        b"anew" => Call::Anew,
        _ => return Err(Complaint::UnknownWord),
    };
    words.end()?;
    Ok(call)
}

#[derive(Default)]
struct Reader<'a> {
    quick: Option<Named>,
    slow: Option<Named>,
    steps: Vec<Step<'a>>,
}

impl<'a> Reader<'a> {
    fn read_cells(&mut self, line: usize, words: &mut Words) -> Result<(), Complaint> {
        let part = match words.must(Complaint::NoConsole)? {
            b"quick" => &mut self.quick,
            b"slow" => &mut self.slow,
            _ => return Err(Complaint::UnknownConsole),
        };
        let address = words.number()?;
        let mut bytes = vec![words.byte()?];
        while let Some(word) = words.next() {
            bytes.push(byte(word)?);
        }
        match part {
            Some(part) if self.steps.is_empty() => {
                part.cells.push(Cells {
                    line,
                    address,
                    bytes,
                });
                Ok(())
            }
            _ => Err(Complaint::CellsOutOfPlace),
        }
    }

    fn read_line(&mut self, number: usize, line: &'a [u8]) -> Result<(), Complaint> {
        if !line.iter().all(|byte| (0x20..=0x7E).contains(byte)) {
            return Err(Complaint::NotPrintable);
        }
        let end = line.iter().position(|&byte| byte == b'#');
        let text = trimmed(&line[..end.unwrap_or(line.len())]);
        let mut words = Words { rest: text };
        match words.next() {
            None => {}
            Some(b"quick") => name_part(number, &mut words, &mut self.quick, Complaint::QuickTwice)?,
            Some(b"slow") => name_part(number, &mut words, &mut self.slow, Complaint::SlowTwice)?,
            Some(b"cells") => self.read_cells(number, &mut words)?,
            Some(name) => {
                let call = call(name, &mut words)?;
                if self.quick.is_none() || self.slow.is_none() {
                    return Err(Complaint::TooEarly);
                }
                self.steps.push(Step { call, text });
            }
        }
        Ok(())
    }
}

fn trimmed(text: &[u8]) -> &[u8] {
    let Some(start) = text.iter().position(|&byte| byte != b' ') else {
        return &[];
    };
    let end = text.iter().rposition(|&byte| byte != b' ').unwrap_or(start);
    &text[start..=end]
}

impl<'a> Script<'a> {
    /// Reads a whole script and makes its parts. The first line that cannot be read is told; where a part is missing at the
    /// end, that is the line behind the last line feed.
    pub fn read(script: &'a [u8]) -> Result<Script<'a>, Unreadable> {
        let mut reader = Reader::default();
        let mut count = 0;
        for line in script.split(|&byte| byte == b'\n') {
            count += 1;
            reader.read_line(count, line).map_err(|complaint| Unreadable {
                line: count,
                complaint,
            })?;
        }
        let missing = |complaint| Unreadable {
            line: count,
            complaint,
        };
        let quick = reader.quick.ok_or(missing(Complaint::NoQuick))?;
        let slow = reader.slow.ok_or(missing(Complaint::NoSlow))?;
        Ok(Script {
            quick: quick.make()?,
            slow: slow.make()?,
            steps: reader.steps,
        })
    }
}
