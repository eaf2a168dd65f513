//! Books: blocks of a part that hold registrations, a page of 64 bytes for the head and one for each position.

use crate::part::{refuse, Cause, Fault, Part};

pub const PAGE: u32 = 64;
/// How many lines a page has.
pub const LINES: u32 = 7;

// The first byte of a book that is in use.
const IN_USE: u8 = 0x00;
// A tally with one line used.
const ONE_LINE: u8 = 0xFE;

#[derive(Clone, Copy, Debug)]
pub struct Book {
    pub block: u32,
    pub start: u32,
}

/// The two books of a console: the one that is read, and the other, which takes its place when it is full.
#[derive(Clone, Copy, Debug)]
pub struct Books {
    pub current: Book,
    pub spare: Book,
    pub positions: u32,
    /// The other book's erasure ended as worn.
    pub spoilt: bool,
}

/// What was read of a page: its tally, and the registration in its last used line.
#[derive(Clone, Copy, Debug)]
pub struct Page {
    pub tally: u8,
    pub stops: Option<u64>,
}

enum Finding {
    Fresh,
    First,
    Second,
    Neither,
}

fn read_line<P: Part>(part: &mut P, at: u32) -> Result<u64, Fault> {
    let mut line = 0;
    for i in 0..8 {
        line = line << 8 | u64::from(part.peek(at + i)?);
    }
    Ok(line)
}

// Reads the page that begins at an address: the tally and the last used line, no more.
fn read_page<P: Part>(part: &mut P, at: u32) -> Result<Page, Fault> {
    let tally = part.peek(at)?;
    let used = tally.trailing_zeros();
    if used == 0 || used > LINES {
        return Ok(Page { tally, stops: None });
    }
    let line = read_line(part, at + 8 * used)?;
    Ok(Page {
        tally,
        stops: (line != u64::MAX).then_some(line),
    })
}

fn burn_line<P: Part>(part: &mut P, at: u32, stops: u64) -> Result<(), Fault> {
    for (address, byte) in (at..).zip(stops.to_be_bytes()) {
        part.burn(address, byte)?;
    }
    Ok(())
}

fn is_blank<P: Part>(part: &mut P, from: u32, count: u32) -> Result<bool, Fault> {
    for address in from..from + count {
        if part.peek(address)? != 0xFF {
            return Ok(false);
        }
    }
    Ok(true)
}

fn is_readable_page<P: Part>(part: &mut P, at: u32) -> Result<bool, Fault> {
    let tally = part.peek(at)?;
    let used = tally.trailing_zeros();
    if used > LINES || u32::from(tally) != 256 - (1 << used) || !is_blank(part, at + 1, 7)? {
        return Ok(false);
    }
    if used > 0 {
        let line = read_line(part, at + 8 * used)?;
        if line >= 1 << 63 && line != u64::MAX {
            return Ok(false);
        }
    }
    is_blank(part, at + 8 * (used + 1), 8 * (LINES - used))
}

fn is_readable_book<P: Part>(part: &mut P, start: u32, positions: u32) -> Result<bool, Fault> {
    if !is_blank(part, start + 1, PAGE - 1)? {
        return Ok(false);
    }
    for position in 1..=positions {
        if !is_readable_page(part, start + PAGE * position)? {
            return Ok(false);
        }
    }
    Ok(true)
}

// Two blocks as books, the first of them current.
fn seat<P: Part>(part: &P, a: u32, b: u32) -> Result<Books, Fault> {
    let Some(first) = part.block(a) else {
        return refuse(Cause::NoSuchBlock, a);
    };
    let Some(second) = part.block(b) else {
        return refuse(Cause::NoSuchBlock, b);
    };
    let size = first.size;
    if a == b || size != second.size || !(128..=8192).contains(&size) || size % PAGE != 0 {
        return refuse(Cause::UnfitBooks, 0);
    }
    if let Some(guarded) = [a, b].into_iter().find(|&block| part.guarded(block)) {
        return refuse(Cause::Guarded, guarded);
    }
    if part.standing().stands() {
        return refuse(Cause::ErasureInTheWay, a);
    }
    Ok(Books {
        current: Book {
            block: a,
            start: first.start,
        },
        spare: Book {
            block: b,
            start: second.start,
        },
        positions: size / PAGE - 1,
        spoilt: false,
    })
}

impl Books {
    /// Takes two blocks of a part for books.
    pub fn open<P: Part>(part: &mut P, a: u32, b: u32) -> Result<Books, Fault> {
        let books = seat(part, a, b)?;
        match books.survey(part)? {
            Finding::Fresh => {
                part.burn(books.current.start, IN_USE)?;
                Ok(books)
            }
            Finding::First => books.take(part),
            Finding::Second => books.changed().take(part),
            Finding::Neither => refuse(Cause::NoReadableBook, 0),
        }
    }

    fn bytes(&self) -> u32 {
        PAGE * (self.positions + 1)
    }

    fn survey<P: Part>(&self, part: &mut P) -> Result<Finding, Fault> {
        let (one, two) = (self.current.start, self.spare.start);
        let found = match (part.peek(one)? == IN_USE, part.peek(two)? == IN_USE) {
            (true, false) if is_readable_book(part, one, self.positions)? => Finding::First,
            (false, true) if is_readable_book(part, two, self.positions)? => Finding::Second,
            (false, false)
                if is_blank(part, one, self.bytes())? && is_blank(part, two, self.bytes())? =>
            {
                Finding::Fresh
            }
            _ => Finding::Neither,
        };
        Ok(found)
    }

    // The current book is taken as it is. The other begins to be erased, unless it is blank.
    fn take<P: Part>(self, part: &mut P) -> Result<Books, Fault> {
        if !is_blank(part, self.spare.start, self.bytes())? {
            part.begin(self.spare.block)?;
        }
        Ok(self)
    }

    fn page_at(&self, position: u32) -> u32 {
        self.current.start + PAGE * position
    }

    /// Reads a position's page in the current book.
    pub fn read<P: Part>(&self, part: &mut P, position: u32) -> Result<Page, Fault> {
        read_page(part, self.page_at(position))
    }

    /// Uses one line more at a position of the current book. An empty line is left as it is.
    pub fn add<P: Part>(
        &self,
        part: &mut P,
        position: u32,
        tally: u8,
        new: Option<u64>,
    ) -> Result<(), Fault> {
        let at = self.page_at(position);
        if let Some(stops) = new {
            burn_line(part, at + 8 * (tally.trailing_zeros() + 1), stops)?;
        }
        part.burn(at, tally & tally.wrapping_sub(1))
    }

    /// Copies every position to the other book, one of them as it will be, and then burns that book's head.
    pub fn copy<P: Part>(
        &self,
        part: &mut P,
        position: u32,
        new: Option<u64>,
    ) -> Result<(), Fault> {
        for q in 1..=self.positions {
            let stops = if q == position {
                new
            } else {
                self.read(part, q)?.stops
            };
            if let Some(stops) = stops {
                let at = self.spare.start + PAGE * q;
                burn_line(part, at + 8, stops)?;
                part.burn(at, ONE_LINE)?;
            }
        }
        part.burn(self.spare.start, IN_USE)
    }

    /// The same two books with the other one current.
    pub fn changed(self) -> Books {
        Books {
            current: self.spare,
            spare: self.current,
            ..self
        }
    }
}
