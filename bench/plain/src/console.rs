//! The console: set, clear, recall, next and wait, over any part.

use crate::book::{Books, LINES};
use crate::part::{Cause, Fault, Part, Progress, Standing};

// The microseconds of one pass in which an erasure is waited for.
const PASS: u32 = 1_000;

// The first bit that is no stop.
const NO_STOP: u64 = 1 << 63;

/// Why the console refused a call: the cause, where it arose in the part, or 0, and the position of the call, or 0.
#[derive(Clone, Copy, Debug, PartialEq, Eq)]
pub struct Refusal {
    pub cause: Cause,
    pub place: u32,
    pub position: u32,
}

/// The answer of an accepted call, but for the microseconds.
#[derive(Clone, Copy, Debug, PartialEq, Eq)]
pub enum Said {
    Done,
    Shows(Option<u64>),
    Finds(Option<u32>),
}

#[derive(Clone, Copy, Debug)]
pub struct Answer {
    pub said: Said,
    pub us: u32,
}

pub type Reply = Result<Answer, Refusal>;

pub struct Console<P> {
    part: P,
    books: Option<Books>,
}

fn refuse<T>(cause: Cause, position: u32) -> Result<T, Refusal> {
    Err(Refusal {
        cause,
        place: 0,
        position,
    })
}

// Lets a running erasure end, and answers whether it ended as worn.
fn let_end<P: Part>(part: &mut P) -> Result<bool, Fault> {
    if !matches!(part.standing(), Standing::Running(_)) {
        return Ok(false);
    }
    loop {
        match part.pass(PASS)? {
            Progress::Running => {}
            ended => return Ok(ended == Progress::Worn),
        }
    }
}

// Reads beside an erasure, which is held meanwhile.
fn beside<P: Part, T>(part: &mut P, read: impl FnOnce(&mut P) -> T) -> T {
    part.hold();
    let seen = read(part);
    part.go_on();
    seen
}

fn store<P: Part>(
    part: &mut P,
    books: &mut Books,
    position: u32,
    new: Option<u64>,
) -> Result<(), Fault> {
    books.spoilt |= let_end(part)?;
    let page = books.read(part, position)?;
    if page.stops.is_none() && new.is_none() {
        return Ok(());
    }
    if page.tally.trailing_zeros() < LINES {
        return books.add(part, position, page.tally, new);
    }
    if books.spoilt {
        return crate::part::refuse(Cause::SpareSpoilt, 0);
    }
    books.copy(part, position, new)?;
    *books = books.changed();
    part.begin(books.spare.block)
}

fn search<P: Part>(part: &mut P, books: &Books, after: u32) -> Result<Option<u32>, Fault> {
    for position in after + 1..=books.positions {
        if books.read(part, position)?.stops.is_some() {
            return Ok(Some(position));
        }
    }
    Ok(None)
}

impl<P: Part> Console<P> {
    /// A console that is not open.
    pub fn new(part: P) -> Console<P> {
        Console { part, books: None }
    }

    /// Makes it anew, closed, over its part as it stands.
    pub fn renew(&mut self) {
        self.books = None;
    }

    /// Whether no erasure stands and no book is spoilt.
    pub fn quiet(&self) -> bool {
        !self.part.standing().stands() && !self.books.is_some_and(|books| books.spoilt)
    }

    fn opened(&self, position: u32) -> Result<Books, Refusal> {
        self.books
            .map_or_else(|| refuse(Cause::OutOfTurn, position), Ok)
    }

    // The books, if they have a position from `least` on.
    fn check(&self, least: u32, position: u32) -> Result<Books, Refusal> {
        let books = self.opened(position)?;
        if !(least..=books.positions).contains(&position) {
            return refuse(Cause::PositionOutside, position);
        }
        Ok(books)
    }

    // Does something with the part, and reports the microseconds by which its clock moved.
    fn timed(&mut self, position: u32, act: impl FnOnce(&mut P) -> Result<Said, Fault>) -> Reply {
        let before = self.part.clock();
        match act(&mut self.part) {
            Ok(said) => Ok(Answer {
                said,
                us: self.part.clock().wrapping_sub(before),
            }),
            Err(Fault { cause, place }) => Err(Refusal {
                cause,
                place,
                position,
            }),
        }
    }

    /// Opens the console on two blocks of its part. A refused open leaves it closed.
    pub fn open(&mut self, a: u32, b: u32) -> Reply {
        if self.books.is_some() {
            return refuse(Cause::OutOfTurn, 0);
        }
        let mut books = None;
        let reply = self.timed(0, |part| {
            books = Some(Books::open(part, a, b)?);
            Ok(Said::Done)
        });
        self.books = books;
        reply
    }

    fn store(&mut self, position: u32, new: Option<u64>) -> Reply {
        let mut books = self.check(1, position)?;
        if new.is_some_and(|stops| stops >= NO_STOP) {
            return refuse(Cause::StopOutside, position);
        }
        let reply = self.timed(position, |part| {
            store(part, &mut books, position, new)?;
            Ok(Said::Done)
        });
        self.books = Some(books);
        reply
    }

    pub fn set(&mut self, position: u32, stops: u64) -> Reply {
        self.store(position, Some(stops))
    }

    pub fn clear(&mut self, position: u32) -> Reply {
        self.store(position, None)
    }

    pub fn recall(&mut self, position: u32) -> Reply {
        let books = self.check(1, position)?;
        self.timed(position, |part| {
            let page = beside(part, |part| books.read(part, position))?;
            Ok(Said::Shows(page.stops))
        })
    }

    /// Gives the nearest filled position after one, from 0 on.
    pub fn next(&mut self, position: u32) -> Reply {
        let books = self.check(0, position)?;
        self.timed(position, |part| {
            let found = beside(part, |part| search(part, &books, position))?;
            Ok(Said::Finds(found))
        })
    }

    /// Lets time pass. A book whose erasure ends as worn in it is spoilt.
    pub fn wait(&mut self, us: u32) -> Reply {
        let mut books = self.opened(0)?;
        let reply = self.timed(0, |part| {
            books.spoilt |= part.pass(us)? == Progress::Worn;
            Ok(Said::Done)
        });
        self.books = Some(books);
        reply
    }
}
