//! The account: what two consoles answered to one list of calls.

use crate::console::{Answer, Console, Refusal, Reply, Said};
use crate::part::Part;
use crate::script::{Call, Script, Seats, Step};
use std::io::{self, Write};

/// What one console answered to one call.
enum Heard {
    Reply(Reply),
    Quiet(bool),
    Anew,
}

impl Heard {
    /// Whether the other console answered the same, the microseconds aside.
    fn is_like(&self, other: &Heard) -> bool {
        match (self, other) {
            (Heard::Reply(Ok(one)), Heard::Reply(Ok(two))) => one.said == two.said,
            (Heard::Reply(Err(one)), Heard::Reply(Err(two))) => one == two,
            (Heard::Quiet(one), Heard::Quiet(two)) => one == two,
            (Heard::Anew, Heard::Anew) => true,
            _ => false,
        }
    }

    fn write(&self, out: &mut impl Write) -> io::Result<()> {
        match self {
            Heard::Quiet(true) => out.write_all(b"yes"),
            Heard::Quiet(false) => out.write_all(b"no"),
            Heard::Anew => out.write_all(b"ok"),
            Heard::Reply(Ok(answer)) => write_answer(out, answer),
            Heard::Reply(Err(Refusal {
                cause,
                place,
                position,
            })) => {
                let number = *cause as u8;
                write!(out, "refused {number} place {place} position {position}")
            }
        }
    }
}

fn write_answer(out: &mut impl Write, answer: &Answer) -> io::Result<()> {
    match answer.said {
        Said::Done => out.write_all(b"ok")?,
        Said::Shows(None) => out.write_all(b"empty")?,
        Said::Shows(Some(stops)) => write!(out, "{stops:016X}")?,
        Said::Finds(None) => out.write_all(b"none")?,
        Said::Finds(Some(position)) => write!(out, "{position}")?,
    }
    write!(out, " +{} us", answer.us)
}

/// Makes one call on one console, which is opened on these blocks if it is to be opened.
fn perform<P: Part>(console: &mut Console<P>, call: Call, on: fn(Seats) -> [u32; 2]) -> Heard {
    Heard::Reply(match call {
        Call::Open(seats) => {
            let [a, b] = on(seats);
            console.open(a, b)
        }
        Call::Set { position, stops } => console.set(position, stops),
        Call::Clear { position } => console.clear(position),
        Call::Recall { position } => console.recall(position),
        Call::Next { position } => console.next(position),
        Call::Wait { us } => console.wait(us),
        Call::Quiet => return Heard::Quiet(console.quiet()),
        Call::Anew => {
            console.renew();
            return Heard::Anew;
        }
    })
}

struct Account<W> {
    out: W,
    same: usize,
    different: usize,
}

impl<W: Write> Account<W> {
    // The words of a call, joined by single spaces.
    fn write_words(&mut self, step: &Step) -> io::Result<()> {
        let words = step.text.split(|&byte| byte == b' ');
        for (i, word) in words.filter(|word| !word.is_empty()).enumerate() {
            if i > 0 {
                self.out.write_all(b" ")?;
            }
            self.out.write_all(word)?;
        }
        Ok(())
    }

    fn add(&mut self, step: &Step, quick: &Heard, slow: &Heard) -> io::Result<()> {
        self.write_words(step)?;
        self.out.write_all(b": ")?;
        quick.write(&mut self.out)?;
        self.out.write_all(b" | ")?;
        slow.write(&mut self.out)?;
        if quick.is_like(slow) {
            self.same += 1;
            self.out.write_all(b" | same\n")
        } else {
            self.different += 1;
            self.out.write_all(b" | different\n")
        }
    }

    fn finish(mut self) -> io::Result<()> {
        let Account {
            same, different, ..
        } = self;
        let calls = same + different;
        writeln!(
            self.out,
            "{calls} calls, {same} same, {different} different"
        )?;
        self.out.flush()
    }
}

/// Makes the calls of a script on both consoles, and writes the account.
pub fn rehearse(script: Script, out: impl Write) -> io::Result<()> {
    let mut quick = Console::new(script.quick);
    let mut slow = Console::new(script.slow);
    let mut account = Account {
        out,
        same: 0,
        different: 0,
    };
    for step in &script.steps {
        let one = perform(&mut quick, step.call, |seats| seats.quick);
        let two = perform(&mut slow, step.call, |seats| seats.slow);
        account.add(step, &one, &two)?;
    }
    account.finish()
}
