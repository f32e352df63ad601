// A fixed list of command files with the lines that the rebuild gives for them, for tests that are to need no Rust.

use crate::cases::hex;
use crate::commands::{field, file_of, Command, LIMIT};
use crate::generate;
use crate::inputs;
use crate::pump;
use crate::reader::INPUT_ROOM;
use crate::records::*;
use crate::replay::{replay, Desk};
use std::io::Write;

const SEED: u64 = 2026;
const RANDOM_FILES: u64 = 40;
const LONGEST_RANDOM: usize = 2000;

pub struct Sample {
    pub name: String,
    pub input: Vec<u8>,
}

impl Sample {
    fn new(name: &str, input: Vec<u8>) -> Sample {
        Sample {
            name: name.replace(' ', "-").replace(',', ""),
            input,
        }
    }

    pub fn lines(&self) -> Vec<u8> {
        replay(&self.input, &mut Desk::unopened())
    }
}

// Open by 7, status of 0, and three bytes that are no command.
pub fn whole_example() -> Vec<u8> {
    let commands = [pump::open(), Command::Status { request: 0 }];
    [file_of(&commands), vec![9, 0, 0]].concat()
}

pub fn samples() -> Vec<Sample> {
    let mut out = vec![
        Sample::new("whole example", whole_example()),
        Sample::new("one of each", file_of(&inputs::one_of_each())),
        Sample::new("callers", file_of(&callers())),
        Sample::new("pages", file_of(&pages())),
    ];
    for example in pump::examples() {
        out.push(Sample::new(example.name, file_of(&example.commands)));
    }
    out.extend(faults());
    for case in 0..RANDOM_FILES {
        let input = generate::file(SEED, case);
        if input.len() <= LONGEST_RANDOM {
            out.push(Sample::new(&format!("random {case}"), input));
        }
    }
    out.extend(numbered("limit", limits()));
    out.extend(numbered("tag", tags()));
    out.extend(numbered("length", lengths()));
    out.extend(numbered("unfinished", unfinished()));
    out.extend(numbered("role", inputs::every_role()));
    out.extend(numbered("cut", inputs::every_cut()));
    out.extend(numbered("change", changes()));
    out
}

fn numbered(name: &str, inputs: Vec<Vec<u8>>) -> Vec<Sample> {
    let named = |(i, input)| Sample::new(&format!("{name} {i}"), input);
    inputs.into_iter().enumerate().map(named).collect()
}

// ---- what is asked by hand

// Each way in which a caller is not whom a command asks for, in the order of document 01; and requests that are not there.
fn callers() -> Vec<Command> {
    let (a, b) = ([b'A'; 32], [b'B'; 32]);
    let unknown = pump::signed(1, [b'D'; 32]);
    let through = |account, key| Caller {
        predecessor: 9,
        ..pump::signed(account, key)
    };
    let mut out = pump::cast();
    for caller in [
        through(1, a),
        unknown.clone(),
        pump::signed(2, b),
        pump::signed(9, a),
    ] {
        out.push(pump::request_by(caller, b"x"));
    }
    let deciding = [
        through(2, b),
        unknown,
        pump::signed(1, a),
        pump::signed(9, b),
        pump::signed(2, b),
    ];
    for caller in deciding {
        out.extend(pump::decisions_by(caller, 0));
    }
    out
}

// Pages at their limits, of a log with one entry more than a page has.
fn pages() -> Vec<Command> {
    let length = 101;
    let mut out = pump::logged(length);
    for limit in [
        None,
        Some(0),
        Some(1),
        Some(50),
        Some(100),
        Some(101),
        Some(u64::MAX),
    ] {
        for from in [0, 1, length - 1, length, length + 1, u64::MAX] {
            out.push(Command::Page { from, limit });
        }
    }
    out
}

// Each fault, at an outer and where it can be at an inner place.
fn faults() -> Vec<Sample> {
    let open = pump::open().bytes();
    let status = Command::Status { request: 0 };
    let number = status.fields().concat();
    let add = inputs::one_of_each()[1].bytes();
    let after = |rest: &[u8]| [&open, rest].concat();
    let mut bad_role = add.clone();
    *bad_role.last_mut().expect("a role") = 2;
    let list = [
        ("no input", vec![]),
        ("outer cut head", after(&[6, 0])),
        ("outer unknown", after(&[0, 0, 0])),
        ("outer field", after(&number)),
        ("status before open", status.bytes()),
        ("open twice", after(&open)),
        ("outer cut value", after(&status.bytes()[..13])),
        ("inner missing", after(&field(6, &[]))),
        ("inner cut head", after(&field(6, &number[..2]))),
        ("inner unknown", after(&field(6, &field(0x14, &[0; 8])))),
        ("inner order", after(&field(6, &field(0x19, &[0; 8])))),
        ("inner kind", after(&field(6, &open))),
        ("inner cut value", after(&field(6, &number[..10]))),
        ("inner length", after(&field(6, &field(0x17, &[0; 7])))),
        ("role 2", after(&bad_role)),
        (
            "after the last, cut",
            after(&field(6, &[&number[..], &[0, 0]].concat())),
        ),
        (
            "after the last, unknown",
            after(&field(6, &[&number[..], &[0, 0, 0]].concat())),
        ),
        (
            "after the last, order",
            after(&field(6, &[&number[..], &number].concat())),
        ),
        ("after the limit", after(&field(7, &after_limit()))),
        (
            "page without a limit's order",
            after(&field(7, &[field(0x19, &[0; 8]), number.clone()].concat())),
        ),
    ];
    list.into_iter()
        .map(|(name, input)| Sample::new(name, input))
        .collect()
}

fn after_limit() -> Vec<u8> {
    let page = Command::Page {
        from: 0,
        limit: Some(5),
    };
    [page.fields().concat(), field(0x1A, &[0; 8])].concat()
}

// ---- parts of what the comparison tries whole, so few that they can be stored

// Commands up to the longest file, and up to one byte more.
fn limits() -> Vec<Vec<u8>> {
    let opened = |input: &Vec<u8>| input.starts_with(&pump::open().bytes());
    let near = |input: &Vec<u8>| (INPUT_ROOM..=INPUT_ROOM + 1).contains(&input.len());
    let all = inputs::at_the_limit().into_iter();
    all.filter(|input| opened(input) && near(input)).collect()
}

// One command for each kind, and a page with its limit.
fn kinds() -> Vec<Command> {
    let mut out = inputs::one_of_each();
    out.dedup_by_key(|c| (c.kind(), c.fields().len()));
    out
}

// Every tag for the short kinds; for the others all that have a meaning, and one more.
fn tags() -> Vec<Vec<u8>> {
    let mut out = Vec::new();
    for command in kinds() {
        let last = match command.fields().len() {
            1 => 255,
            _ => LIMIT + 1,
        };
        out.extend((0..=last).flat_map(|tag| inputs::tagged(&command, tag)));
    }
    out
}

// No bytes, one fewer and one more.
fn lengths() -> Vec<Vec<u8>> {
    let mut out = Vec::new();
    for command in kinds() {
        for (at, field) in command.fields().iter().enumerate() {
            for length in [0, field[2] - 1, field[2] + 1] {
                out.extend(inputs::resized(&command, at, length));
            }
        }
    }
    out
}

fn unfinished() -> Vec<Vec<u8>> {
    kinds().iter().flat_map(inputs::unfinished).collect()
}

// At every fourteenth place, in one of the ways.
fn changes() -> Vec<Vec<u8>> {
    let places = (0..inputs::every_cut().len()).step_by(14);
    let way = |(i, at): (usize, usize)| {
        let ways = inputs::changed(at);
        ways[i % ways.len()].clone()
    };
    places.enumerate().map(way).collect()
}

// For each file its name, its bytes in one line, the number of lines that it gives, and these.
pub fn print(out: &mut impl Write) -> std::io::Result<()> {
    for sample in samples() {
        let lines = String::from_utf8(sample.lines()).expect("lines of text");
        writeln!(out, "file {}", sample.name)?;
        writeln!(out, "input {}", hex(&sample.input))?;
        writeln!(out, "lines {}", lines.lines().count())?;
        write!(out, "{lines}")?;
    }
    Ok(())
}
