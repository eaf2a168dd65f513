//! Writes a script for `rehearse` to standard output, the same one for the same words:
//!
//!     generate valid|refused|damaged SEED
//!     generate timing CALLS SEED

use plain::geometry::{Geometry, B004, BENCH, T004};
use std::env;
use std::fmt::Write as _;
use std::io::{self, Write as _};
use std::process::ExitCode;

/// xorshift64*
struct Random(u64);

impl Random {
    fn new(seed: u64) -> Random {
        let mut random = Random(seed.wrapping_mul(0x9E37_79B9_7F4A_7C15) | 1);
        for _ in 0..16 {
            random.next();
        }
        random
    }

    fn next(&mut self) -> u64 {
        self.0 ^= self.0 >> 12;
        self.0 ^= self.0 << 25;
        self.0 ^= self.0 >> 27;
        self.0.wrapping_mul(0x2545_F491_4F6C_DD1D)
    }

    fn below(&mut self, count: u64) -> u64 {
        (self.next() >> 16) % count
    }

    /// From `low` to `high`, both included.
    fn range(&mut self, low: u32, high: u32) -> u32 {
        low + self.below(u64::from(high - low) + 1) as u32
    }

    fn chance(&mut self, percent: u64) -> bool {
        self.below(100) < percent
    }

    fn pick<'a, T>(&mut self, of: &'a [T]) -> &'a T {
        &of[self.below(of.len() as u64) as usize]
    }

    fn word<'a>(&mut self, of: &[&'a str]) -> &'a str {
        self.pick::<&str>(of)
    }
}

#[derive(Clone, Copy)]
struct Block {
    size: u32,
    marked: bool,
}

/// A part as a script names it, and its blocks, the protected and worn ones marked.
#[derive(Default)]
struct Part {
    text: String,
    blocks: Vec<Block>,
}

impl Part {
    fn join(&mut self, other: Part) {
        if !self.text.is_empty() {
            self.text.push_str(" + ");
        }
        self.text.push_str(&other.text);
        self.blocks.extend(other.blocks);
    }

    /// Where a block begins.
    fn start_of(&self, number: usize) -> u32 {
        self.blocks[..number].iter().map(|block| block.size).sum()
    }

    /// The blocks of a size, those with a mark only where they are wanted.
    fn of_size(&self, size: u32, marked: bool) -> Vec<usize> {
        let fits = |&i: &usize| self.blocks[i].size == size && (marked || !self.blocks[i].marked);
        (0..self.blocks.len()).filter(fits).collect()
    }
}

const BOOK_SIZES: [u32; 8] = [128, 192, 256, 512, 1024, 2048, 4096, 8192];

fn array(random: &mut Random, size: u32) -> Part {
    let count = random.range(1, 6);
    Part {
        text: format!("array {count} {size}"),
        blocks: vec![
            Block {
                size,
                marked: false
            };
            count as usize
        ],
    }
}

fn mask(random: &mut Random) -> u32 {
    match random.below(3) {
        0 => 1 << random.below(11),
        1 => (random.next() & random.next() & 0x7FF) as u32,
        _ => (random.next() & 0x7FF) as u32,
    }
}

fn chip(random: &mut Random, marks: u64) -> Part {
    let named: [(&str, &Geometry); 4] = [
        ("bench", &BENCH),
        ("bench", &BENCH),
        ("b004", &B004),
        ("t004", &T004),
    ];
    let &(name, geometry) = random.pick(&named);
    let top = random.range(1, 300);
    let program = *random.pick(&[1, 2, 16, 16, 300, top]);
    let top = random.range(1, 100_000);
    let mut erase = *random.pick(&[1, 49, 50, 949, 950, 951, 1000, 1000, 5000, 100_000, top]);
    if random.chance(3) {
        erase = 10_000_000;
    }
    let mut text = format!("chip {name} {program} {erase} {}", random.range(1, 15));
    let protected = if random.chance(marks) {
        mask(random)
    } else {
        0
    };
    let worn = if random.chance(marks) {
        mask(random)
    } else {
        0
    };
    if protected != 0 || random.chance(5) {
        let _ = write!(text, " protect {}", number(random, protected.into()));
    }
    if worn != 0 || random.chance(5) {
        let _ = write!(text, " worn {}", number(random, worn.into()));
    }
    let blocks = geometry.blocks.iter().enumerate().map(|(i, block)| Block {
        size: block.size,
        marked: (protected | worn) >> i & 1 == 1,
    });
    Part {
        text,
        blocks: blocks.collect(),
    }
}

/// A part that has two unmarked blocks of a size.
fn part(random: &mut Random, size: u32, marks: u64) -> Part {
    loop {
        let mut whole = Part::default();
        for _ in 0..*random.pick(&[1, 1, 1, 2, 2, 3, 4]) {
            let next = if random.chance(60) {
                chip(random, marks)
            } else {
                let other = *random.pick(&BOOK_SIZES);
                let size = if random.chance(70) { size } else { other };
                array(random, size)
            };
            whole.join(next);
        }
        if whole.of_size(size, false).len() >= 2 {
            return whole;
        }
    }
}

/// Two different blocks of a size.
fn seats(random: &mut Random, part: &Part, size: u32, marked: bool) -> (usize, usize) {
    let mut free = part.of_size(size, marked);
    let first = free.swap_remove(random.below(free.len() as u64) as usize);
    (first, *random.pick(&free))
}

/// A number in one of its spellings.
fn number(random: &mut Random, value: u64) -> String {
    match random.below(12) {
        0 => format!("0x{value:X}"),
        1 => format!("0x{value:x}"),
        2 => format!("0x{value:016X}"),
        3 => format!("00{value}"),
        _ => value.to_string(),
    }
}

/// The words of a line, with a stray space or comment now and then.
fn line(random: &mut Random, words: &str) -> String {
    let mut text = String::new();
    if random.chance(2) {
        text.push_str(random.word(&["\n", "  \n", "# a remark\n", "   # set 1 1\n"]));
    }
    if random.chance(3) {
        text.push_str(&" ".repeat(random.range(1, 3) as usize));
    }
    if random.chance(5) {
        text.push_str(&words.replace(' ', &" ".repeat(random.range(2, 3) as usize)));
    } else {
        text.push_str(words);
    }
    if random.chance(4) {
        text.push_str(random.word(&[" ", "   ", " # here", "# here", " ## 1 2 3", " #"]));
    }
    text.push('\n');
    text
}

/// How far a list of calls strays from what is accepted, and how many positions it goes by.
struct Habits {
    positions: u32,
    hot: u32,
    strays: u64,
    longest: u32,
    marks: u64,
    blocks: u64,
    size: u32,
}

impl Habits {
    fn position(&self, random: &mut Random, least: u32) -> u32 {
        if random.chance(self.strays) {
            let near = self.positions + 1;
            return *random.pick(&[0, near, near + 1, 127, 128, 255, 256, 257, 65536, u32::MAX]);
        }
        if random.chance(60) {
            return self.hot;
        }
        random.range(least, self.positions)
    }

    fn stops(&self, random: &mut Random) -> u64 {
        if random.chance(self.strays) {
            return *random.pick(&[1 << 63, u64::MAX, (1 << 63) + 1]);
        }
        let any = random.next() >> 1;
        *random.pick(&[0, 1, any, any, any, any & 0xFFFF, (1 << 63) - 1])
    }

    fn time(&self, random: &mut Random) -> u32 {
        if random.chance(self.strays) {
            let over = random.range(1_000_000_001, u32::MAX);
            return *random.pick(&[1_000_000_000, 1_000_000_001, u32::MAX, over]);
        }
        let any = random.range(0, self.longest);
        *random.pick(&[0, 1, 15, 49, 50, 51, 950, 1000, any, any, any])
    }

    fn block(&self, random: &mut Random) -> u64 {
        let any = random.below(self.blocks + 2);
        let large = u64::from(u32::MAX);
        *random.pick(&[any, any, any, any, any, any, any, any, any, large])
    }

    fn open(&self, random: &mut Random) -> String {
        let mut text = String::from("open");
        for _ in 0..4 {
            let block = self.block(random);
            let _ = write!(text, " {}", number(random, block));
        }
        text
    }

    fn call(&self, random: &mut Random) -> String {
        let choice = random.below(100);
        match choice {
            0..=34 => {
                let position = self.position(random, 1);
                let stops = self.stops(random);
                let position = number(random, position.into());
                format!("set {position} {}", number(random, stops))
            }
            35..=44 => {
                let position = self.position(random, 1);
                format!("clear {}", number(random, position.into()))
            }
            45..=64 => {
                let position = self.position(random, 1);
                format!("recall {}", number(random, position.into()))
            }
            65..=79 => {
                let position = self.position(random, 0);
                let position = if random.chance(20) { 0 } else { position };
                format!("next {}", number(random, position.into()))
            }
            80..=91 => {
                let us = self.time(random);
                format!("wait {}", number(random, us.into()))
            }
            _ => String::from("quiet"),
        }
    }
}

/// Where the two books of a console lie in its part, and how large they are.
struct Seated {
    first: u32,
    second: u32,
    size: u32,
}

/// The two parts of a script, where the books lie in each, and an open on blocks of one size in each.
struct Opening {
    quick: String,
    slow: String,
    quick_seats: Seated,
    slow_seats: Seated,
    open: String,
}

fn opening(random: &mut Random, habits: &mut Habits, size: u32, marked: bool) -> Opening {
    let quick = part(random, habits.size, habits.marks);
    let slow = part(random, size, habits.marks);
    habits.blocks = quick.blocks.len().max(slow.blocks.len()) as u64;
    let (a, b) = seats(random, &quick, habits.size, marked);
    let (c, d) = seats(random, &slow, size, marked);
    Opening {
        quick: format!("quick {}", quick.text),
        slow: format!("slow {}", slow.text),
        quick_seats: Seated {
            first: quick.start_of(a),
            second: quick.start_of(b),
            size: habits.size,
        },
        slow_seats: Seated {
            first: slow.start_of(c),
            second: slow.start_of(d),
            size,
        },
        open: format!("open {a} {b} {c} {d}"),
    }
}

/// Bytes that lie so many bytes behind the start of a book.
type Piece = (u32, Vec<u8>);

/// A line of a page: stops, or a position that is empty.
fn stored(random: &mut Random) -> [u8; 8] {
    if random.chance(25) {
        [0xFF; 8]
    } else {
        (random.next() >> 1).to_be_bytes()
    }
}

/// A book in use, of which some positions were written.
fn book(random: &mut Random, size: u32) -> Vec<Piece> {
    let mut pieces = vec![(0, vec![0])];
    for position in 1..size / 64 {
        if random.chance(40) {
            let used = random.range(0, 7);
            let mut page = vec![0xFF; 8];
            page[0] = (0xFFu32 << used) as u8;
            for _ in 0..used {
                page.extend(stored(random));
            }
            pieces.push((64 * position, page));
        }
    }
    pieces
}

/// Spoils a book: a byte anywhere, a head, or a tally.
fn spoil(random: &mut Random, size: u32) -> Piece {
    let byte = (random.next() >> 40) as u8;
    let byte = *random.pick(&[0x00, 0xFE, 0x80, byte]);
    let place = random.range(0, size - 1);
    let page = 64 * random.below(u64::from(size / 64)) as u32;
    (*random.pick(&[place, place, page, 0]), vec![byte])
}

/// The line that puts bytes into the memory of a console's part.
fn cells(random: &mut Random, who: &str, address: u64, bytes: &[u8]) -> String {
    let mut text = format!("cells {who} {}", number(random, address));
    for &byte in bytes {
        let _ = write!(text, " {}", number(random, byte.into()));
    }
    text
}

/// The lines that put the pieces of a book into the memory of a console's part.
fn filled(random: &mut Random, who: &str, start: u32, pieces: &[Piece]) -> Vec<String> {
    let line = |(place, bytes): &Piece| cells(random, who, u64::from(start + place), bytes);
    pieces.iter().map(line).collect()
}

fn habits(random: &mut Random, strays: u64, marks: u64) -> Habits {
    let size = *random.pick(&BOOK_SIZES);
    let positions = size / 64 - 1;
    Habits {
        positions,
        hot: random.range(1, positions),
        strays,
        longest: *random.pick(&[60, 2_000, 20_000, 1_000_000, 1_000_000_000]),
        marks,
        blocks: 0,
        size,
    }
}

/// A script that a console accepts: one open, and then any calls within their limits.
fn valid(random: &mut Random) -> String {
    let mut habits = habits(random, 0, 20);
    let size = habits.size;
    let opening = opening(random, &mut habits, size, false);
    let mut lines = vec![opening.quick, opening.slow];
    if random.chance(30) {
        lines.swap(0, 1);
    }
    if random.chance(40) {
        // Books that were written before, with some of what was there before in the spare one.
        let pieces = book(random, size);
        let (quick, slow) = (&opening.quick_seats, &opening.slow_seats);
        lines.extend(filled(random, "quick", quick.first, &pieces));
        lines.extend(filled(random, "slow", slow.first, &pieces));
        if random.chance(30) {
            let left = [(1, vec![0xFF, 0x00, 0x7F])];
            lines.extend(filled(random, "quick", quick.second, &left));
            lines.extend(filled(random, "slow", slow.second, &left));
        }
    }
    lines.push(opening.open.clone());
    let again = random.chance(30);
    for _ in 0..*random.pick(&[0, 1, 30, 300, 1000, 2000]) {
        lines.push(habits.call(random));
        if again && random.chance(3) {
            lines.push(String::from("anew"));
            lines.push(opening.open.clone());
        }
    }
    lines.iter().map(|words| line(random, words)).collect()
}

/// A part about which nothing is sure but that it can be made. Some are too large together.
fn any_part(random: &mut Random) -> Part {
    let mut whole = Part::default();
    for _ in 0..random.range(1, 4) {
        let next = match random.below(20) {
            0 => Part {
                text: String::from("array 256 65536"),
                blocks: Vec::new(),
            },
            1..=9 => {
                let size = *random.pick(&[64, 65, 128, 129, 192, 512, 4096, 8192, 8256, 65536]);
                array(random, size)
            }
            _ => chip(random, 60),
        };
        whole.join(next);
    }
    whole
}

/// A script that can be read, with refusals of all kinds.
fn refused(random: &mut Random) -> String {
    let strays = *random.pick(&[5, 20, 50]);
    let mut habits = habits(random, strays, 70);
    let other = *random.pick(&BOOK_SIZES);
    let size = if random.chance(80) {
        habits.size
    } else {
        other
    };
    let marked = random.chance(60);
    let Opening {
        mut quick,
        mut slow,
        quick_seats,
        slow_seats,
        open,
    } = opening(random, &mut habits, size, marked);
    let mut books = Vec::new();
    for (who, seats) in [("quick", quick_seats), ("slow", slow_seats)] {
        for start in [seats.first, seats.second] {
            if random.chance(25) {
                let pieces = book(random, seats.size);
                books.extend(filled(random, who, start, &pieces));
            }
            if random.chance(15) {
                let piece = spoil(random, seats.size);
                books.extend(filled(random, who, start, &[piece]));
            }
        }
        if random.chance(3) {
            let address = random.next() >> 32 >> random.below(24);
            books.push(cells(random, who, address, &[0, 0xFF]));
        }
    }
    if random.chance(12) {
        quick = format!("quick {}", any_part(random).text);
    }
    if random.chance(12) {
        slow = format!("slow {}", any_part(random).text);
    }
    let mut text = line(random, &quick) + &line(random, &slow);
    for words in &books {
        text.push_str(&line(random, words));
    }
    let count = *random.pick(&[10, 50, 200, 600]);
    let fit = random.below(count / 5);
    let reopens = *random.pick(&[1, 10, 40]);
    for i in 0..count {
        let words = if i == fit && random.chance(90) {
            open.clone()
        } else if random.chance(reopens) {
            match random.below(4) {
                0 => String::from("anew"),
                1 => open.clone(),
                _ => habits.open(random),
            }
        } else {
            habits.call(random)
        };
        text.push_str(&line(random, &words));
    }
    text
}

const BAD_LINES: [&str; 78] = [
    "set",
    "set 1",
    "set 1 2 3",
    "set 1 -2",
    "set 1 +2",
    "set one 2",
    "set 1 18446744073709551615",
    "set 1 18446744073709551616",
    "set 1 0x10000000000000000",
    "set 4294967295 1",
    "set 4294967296 1",
    "set 0x 1",
    "set 0X1 1",
    "set 0x1G 1",
    "set 1 0x7FFFFFFFFFFFFFFf",
    "Set 1 2",
    "sett 1 2",
    "clear",
    "clear 1 1",
    "clear 99999999999999999999999999999999999999999",
    "clear 9999999999999999999999999999999999999999x",
    "recall",
    "recall 1.",
    "recall 1 2",
    "next",
    "next 0 0",
    "next x",
    "wait",
    "wait 4294967295",
    "wait 4294967296",
    "wait 1 us",
    "wait 1,000",
    "quiet 1",
    "quiet quiet",
    "open",
    "open 0 1",
    "open 0 1 2",
    "open 0 1 2 3 4",
    "open 0 1 2 4294967296",
    "cells",
    "cells 0 1",
    "cells both 0 1",
    "cells quick",
    "cells slow x 1",
    "cells quick 0",
    "cells quick 0 255",
    "cells slow 0 0x00 0xFF",
    "cells quick 0 256",
    "cells slow 0 1 -1",
    "cells slow 0 1 two",
    "cells quick 4294967295 1",
    "cells quick 4294967296 1",
    "cells slow 16777215 1 2",
    "anew",
    "anew 1",
    "chip bench 16 1000 15",
    "array 4 512",
    "quick",
    "slow",
    "quick array 4 512",
    "slow array 4 512",
    "quick array 4",
    "quick array 0 512",
    "quick chip bench 16 1000 16",
    "slow chip bench 16 1000 15 protect 1 worn 2 protect 3",
    "slow tape 3",
    "+",
    "quick +",
    ".",
    "0",
    "set\t1 2",
    "set 1 2\t",
    "set 1 2\r",
    "\r",
    "\t",
    "\u{c}",
    "# only a remark \u{e4}",
    "quiet # \u{2019}",
];

const BAD_PARTS: [&str; 44] = [
    "",
    "chip",
    "array",
    "tape 4 512",
    "chip bench",
    "chip bench 16",
    "chip bench 16 1000",
    "chip t005 16 1000 15",
    "chip BENCH 16 1000 15",
    "chip 2 16 1000 15",
    "chip bench 0 1000 15",
    "chip bench 301 1000 15",
    "chip bench 16 0 15",
    "chip bench 16 10000001 15",
    "chip bench 16 1000 0",
    "chip bench 16 1000 16",
    "chip bench 4294967296 1000 15",
    "chip bench 16 1000 15 protect",
    "chip bench 16 1000 15 protect 0x800",
    "chip bench 16 1000 15 protect 0x7FF",
    "chip bench 16 1000 15 worn",
    "chip bench 16 1000 15 worn 0x800",
    "chip bench 16 1000 15 worn 1 protect 1",
    "chip bench 16 1000 15 protect 1 protect 1",
    "chip bench 16 1000 15 protect 1 worn",
    "chip bench 16 1000 15 protect 1 worn 0x100000000",
    "chip bench 16 1000 15 1",
    "array 0 512",
    "array 257 512",
    "array 4 63",
    "array 4 65537",
    "array 4 512 1",
    "array 4",
    "array 4 x",
    "array 65536 65536",
    "array 4 512 +",
    "+ array 4 512",
    "array 4 512 + + array 4 512",
    "array 4 512 array 4 512",
    "array 4 512+ array 4 512",
    "array 4 512 + chip bench 16 1000",
    "array 1 64 + array 1 64 + array 1 64 + array 1 64 + array 1 64",
    "array 1 64 + array 1 64 + array 1 64 + array 1 64 +",
    "array 0 64 + array 1 64 + tape",
];

fn garbage(random: &mut Random) -> Vec<u8> {
    let count = random.range(1, 30);
    let any = |_| (random.next() >> 40) as u8;
    (0..count).map(any).collect()
}

/// Harms one line of a script, or its bytes.
fn harm(random: &mut Random, lines: &mut Vec<Vec<u8>>) {
    let at = random.below(lines.len() as u64 + 1) as usize;
    let Some(index) = at.checked_sub(1) else {
        match random.below(4) {
            0 => lines.clear(),
            1 => lines.insert(0, b"quiet".to_vec()),
            2 => lines.insert(0, lines[0].clone()),
            _ => lines.truncate(1),
        }
        return;
    };
    match random.below(10) {
        0 => lines.insert(index, garbage(random)),
        1 => {
            let spoil = garbage(random);
            let line = &mut lines[index];
            let from = random.below(line.len() as u64 + 1) as usize;
            line.splice(from..from, spoil);
        }
        2 => {
            let mut words: Vec<&[u8]> = lines[index].split(|&byte| byte == b' ').collect();
            words.remove(random.below(words.len() as u64) as usize);
            lines[index] = words.join(&b' ');
        }
        3 => {
            let line = &mut lines[index];
            line.truncate(random.below(line.len() as u64 + 1) as usize);
        }
        4 => {
            let line = &mut lines[index];
            if !line.is_empty() {
                let from = random.below(line.len() as u64) as usize;
                line[from] = (random.next() >> 40) as u8;
            }
        }
        5 | 6 => {
            let name = *random.pick(&["quick", "slow"]);
            let part = *random.pick(&BAD_PARTS);
            let words = format!("{name} {part}").into_bytes();
            match random.below(3) {
                0 => lines.insert(index, words),
                1 => lines[0] = words,
                _ => lines[index.min(1)] = words,
            }
        }
        7 => {
            lines.remove(index.min(1));
        }
        _ => lines.insert(index, random.pick(&BAD_LINES).as_bytes().to_vec()),
    }
}

/// A script that was readable before it was harmed, mostly in a way that makes it unreadable.
fn damaged(random: &mut Random) -> Vec<u8> {
    let mut habits = habits(random, 10, 30);
    let size = habits.size;
    let opening = opening(random, &mut habits, size, false);
    let start = opening.slow_seats.first;
    let mut words = vec![opening.quick, opening.slow];
    if random.chance(30) {
        words.extend(filled(random, "slow", start, &[(0, vec![0])]));
    }
    words.push(opening.open);
    let mut lines: Vec<Vec<u8>> = words.into_iter().map(String::into_bytes).collect();
    for _ in 0..random.range(0, 20) {
        let words = habits.call(random);
        let text = line(random, &words).into_bytes();
        lines.extend(
            text[..text.len() - 1]
                .split(|&byte| byte == b'\n')
                .map(<[u8]>::to_vec),
        );
    }
    for _ in 0..*random.pick(&[1, 1, 1, 2, 3]) {
        if !lines.is_empty() {
            harm(random, &mut lines);
        }
    }
    let mut bytes = lines.join(&b'\n');
    if random.chance(80) {
        bytes.push(b'\n');
    }
    bytes
}

/// A script of so many calls, as a long day of playing would have them.
fn timing(random: &mut Random, calls: u64) -> String {
    let mut text = String::from("quick array 4 512\nslow chip bench 16 1000 15\nopen 0 1 1 2\n");
    for _ in 1..calls {
        let position = random.range(1, 7);
        let _ = match random.below(100) {
            0..=34 => writeln!(text, "recall {position}"),
            35..=69 => writeln!(text, "next {}", position - 1),
            70..=81 => writeln!(text, "set {position} 0x{:X}", random.next() >> 1),
            82..=87 => writeln!(text, "clear {position}"),
            88..=97 => writeln!(text, "wait {}", random.range(0, 400)),
            _ => writeln!(text, "quiet"),
        };
    }
    text
}

fn generate(words: &[&str]) -> Option<Vec<u8>> {
    let seed = words.last()?.parse().ok()?;
    let random = &mut Random::new(seed);
    match words {
        ["valid", _] => Some(valid(random).into_bytes()),
        ["refused", _] => Some(refused(random).into_bytes()),
        ["damaged", _] => Some(damaged(random)),
        ["timing", calls, _] => Some(timing(random, calls.parse().ok()?).into_bytes()),
        _ => None,
    }
}

fn main() -> ExitCode {
    let words: Vec<String> = env::args().skip(1).collect();
    let words: Vec<&str> = words.iter().map(String::as_str).collect();
    let Some(script) = generate(&words) else {
        eprintln!("usage: generate valid|refused|damaged SEED\n       generate timing CALLS SEED");
        return ExitCode::FAILURE;
    };
    match io::stdout().write_all(&script) {
        Ok(()) => ExitCode::SUCCESS,
        Err(error) => {
            eprintln!("the script cannot be written: {error}");
            ExitCode::FAILURE
        }
    }
}
