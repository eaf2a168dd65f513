//! The stored scripts give the stored accounts, and bad lines the complaints that fit.

use plain::account::rehearse;
use plain::script::{Complaint, Script, Unreadable};
use std::fs;
use std::path::Path;

fn account(script: &[u8]) -> Result<String, Unreadable> {
    let mut out = Vec::new();
    rehearse(Script::read(script)?, &mut out).expect("a vector takes every byte");
    Ok(String::from_utf8(out).expect("an account is ASCII"))
}

#[test]
fn stored_accounts() {
    let folder = Path::new(env!("CARGO_MANIFEST_DIR")).join("tests");
    let mut count = 0;
    for entry in fs::read_dir(folder).unwrap() {
        let path = entry.unwrap().path();
        if path.extension().is_some_and(|kind| kind == "script") {
            let wanted = fs::read_to_string(path.with_extension("account")).unwrap();
            let given = account(&fs::read(&path).unwrap()).unwrap();
            assert_eq!(given, wanted, "{}", path.display());
            count += 1;
        }
    }
    assert!(count >= 2);
}

// What is wrong with a line that stands behind two readable ones.
fn complaint(line: &str) -> Complaint {
    let script = format!("quick array 4 512\nslow array 4 512\n{line}\n");
    let unreadable = account(script.as_bytes()).unwrap_err();
    assert_eq!(unreadable.line, 3, "{line}");
    unreadable.complaint
}

#[test]
fn complaints() {
    let cases = [
        ("tune 1", Complaint::UnknownWord),
        ("set\t1 2", Complaint::NotPrintable),
        ("set 1", Complaint::NoNumber),
        ("quick", Complaint::NoPiece),
        ("slow array 4 512 +", Complaint::NoPiece),
        ("quiet 1", Complaint::TooManyWords),
        ("quick array 4 512 array 4 512", Complaint::TooManyWords),
        ("set 1 -1", Complaint::BadNumber),
        ("set 1 0x", Complaint::BadNumber),
        ("set 1 0X1", Complaint::BadNumber),
        ("set 1 99999999999999999999x", Complaint::BadNumber),
        ("set 1 18446744073709551616", Complaint::BadNumber),
        ("wait 4294967296", Complaint::BadNumber),
        ("quick tape 4", Complaint::UnknownPiece),
        ("quick chip t400 1 1 1", Complaint::UnknownGeometry),
        (
            "quick array 1 64 + array 1 64 + array 1 64 + array 1 64 + array 1 64",
            Complaint::TooManyPieces,
        ),
        ("quick array 1 64", Complaint::QuickTwice),
        ("slow array 0 64", Complaint::SlowTwice),
    ];
    for (line, wanted) in cases {
        assert_eq!(complaint(line), wanted, "{line}");
    }
}

#[test]
fn limits() {
    let unfit = [
        "array 0 64",
        "array 257 64",
        "array 1 63",
        "array 1 65537",
        "chip bench 0 1 1",
        "chip bench 301 1 1",
        "chip bench 1 0 1",
        "chip bench 1 10000001 1",
        "chip bench 1 1 0",
        "chip bench 1 1 16",
        "chip bench 1 1 1 protect 0x800",
        "chip bench 1 1 1 worn 0x800",
        "array 1 64 + array 0 64",
    ];
    for part in unfit {
        let unreadable = account(format!("quick {part}\nslow array 1 64\n").as_bytes()).unwrap_err();
        let wanted = Unreadable {
            line: 1,
            complaint: Complaint::Unfit,
        };
        assert_eq!(unreadable, wanted, "{part}");
    }
    let fit = [
        "array 1 64",
        "array 256 65536 + array 1 64",
        "chip t004 300 10000000 15 protect 0x7FF worn 0x7FF",
        "chip bench 1 1 1 protect 0 worn 0",
    ];
    for part in fit {
        let script = format!("slow {part}\nquick {part}");
        let given = account(script.as_bytes()).unwrap();
        assert_eq!(given, "0 calls, 0 same, 0 different\n", "{part}");
    }
}

#[test]
fn parts_come_first() {
    let cases: [(&str, usize, Complaint); 5] = [
        ("", 1, Complaint::NoQuick),
        ("# nothing\n\n", 3, Complaint::NoQuick),
        ("quick array 1 64\n", 2, Complaint::NoSlow),
        ("quick array 1 64\nquiet\n", 2, Complaint::TooEarly),
        ("slow array 1 64\nquiet\n", 2, Complaint::TooEarly),
    ];
    for (script, line, complaint) in cases {
        let wanted = Unreadable { line, complaint };
        assert_eq!(account(script.as_bytes()), Err(wanted), "{script:?}");
    }
}

#[test]
fn words_as_written() {
    let script = "quick array 1 64 # one\n slow  array 1 64\n\n  next   0x00#\n quiet \n";
    let wanted = "next 0x00: refused 9 place 0 position 0 | refused 9 place 0 position 0 | same\n\
                  quiet: yes | yes | same\n2 calls, 2 same, 0 different\n";
    assert_eq!(account(script.as_bytes()).unwrap(), wanted);
}
