// A failing case as a file: raw bytes for a command file, lines of text where tables belong to it. What is written here can be read again.

use crate::commands::Command;
use crate::damage::Call;
use crate::layout::Tables;
use crate::reader::Reader;
use std::fmt::Write;
use std::path::{Path, PathBuf};

const MARK: &str = "brasstally case";

// A command file, a call on tables, or a command file on tables.
pub enum Case {
    File(Vec<u8>),
    Call(Call),
    FileOn(Tables, Vec<u8>),
}

pub fn hex(bytes: &[u8]) -> String {
    bytes.iter().map(|b| format!("{b:02x}")).collect()
}

fn unhex(digits: &str) -> Option<Vec<u8>> {
    if !digits.is_ascii() || digits.len() % 2 != 0 {
        return None;
    }
    let pairs = (0..digits.len()).step_by(2);
    pairs
        .map(|i| u8::from_str_radix(&digits[i..i + 2], 16).ok())
        .collect()
}

// ---- writing

pub fn save(directory: &Path, name: &str, case: &Case) -> std::io::Result<PathBuf> {
    std::fs::create_dir_all(directory)?;
    let (ending, bytes) = match case {
        Case::File(input) => ("cmd", input.clone()),
        Case::Call(call) => {
            let command = hex(&call.command.bytes());
            let asked = format!("{MARK}\ncommand {command}\nroom {}\n", call.room);
            ("case", (asked + &rows(&call.tables)).into_bytes())
        }
        Case::FileOn(tables, input) => {
            let asked = format!("{MARK}\ninput {}\n", hex(input));
            ("case", (asked + &rows(tables)).into_bytes())
        }
    };
    let path = directory.join(format!("{name}.{ending}"));
    std::fs::write(&path, bytes)?;
    path.canonicalize()
}

// Lengths first, and then each row that is not zero.
fn rows(t: &Tables) -> String {
    let mut out = String::new();
    let (book, keys, texts) = (t.book.len(), t.keys.len(), t.texts.len());
    let _ = writeln!(out, "lengths {book} {keys} {texts}");
    for (i, row) in t.book.iter().enumerate().filter(|(_, r)| **r != [0; 6]) {
        let cells: Vec<String> = row.iter().map(|c| c.to_string()).collect();
        let _ = writeln!(out, "book {i} {}", cells.join(" "));
    }
    for (i, key) in t.keys.iter().enumerate().filter(|(_, k)| **k != [0; 32]) {
        let _ = writeln!(out, "key {i} {}", hex(key));
    }
    for (i, part) in t.texts.chunks(32).enumerate() {
        if part.iter().any(|b| *b != 0) {
            let _ = writeln!(out, "text {} {}", i * 32, hex(part));
        }
    }
    out
}

// ---- reading

pub fn load(path: &Path) -> Result<Case, String> {
    let bytes = std::fs::read(path).map_err(|e| e.to_string())?;
    match std::str::from_utf8(&bytes) {
        Ok(text) if text.starts_with(MARK) => {
            read(text).ok_or_else(|| "the case is not written as it should be".to_string())
        }
        _ => Ok(Case::File(bytes)),
    }
}

// What a case's lines have told so far.
struct Found {
    tables: Tables,
    command: Option<Command>,
    input: Option<Vec<u8>>,
    room: usize,
}

fn read(text: &str) -> Option<Case> {
    let mut found = Found {
        tables: Tables::zero(),
        command: None,
        input: None,
        room: 0,
    };
    for line in text.lines().skip(1) {
        read_line(&mut found, line)?;
    }
    let (tables, room) = (found.tables, found.room);
    if let Some(input) = found.input {
        return Some(Case::FileOn(tables, input));
    }
    let command = found.command?;
    Some(Case::Call(Call {
        tables,
        command,
        room,
    }))
}

fn read_line(found: &mut Found, line: &str) -> Option<()> {
    let words: Vec<&str> = line.split(' ').collect();
    let number = |i: usize| words.get(i)?.parse::<usize>().ok();
    let t = &mut found.tables;
    match *words.first()? {
        "command" => found.command = Some(read_command(&unhex(words.get(1)?)?)?),
        "input" => found.input = Some(unhex(words.get(1)?)?),
        "room" => found.room = number(1)?,
        "lengths" => {
            t.book.resize(number(1)?, [0; 6]);
            t.keys.resize(number(2)?, [0; 32]);
            t.texts.resize(number(3)?, 0);
        }
        "book" => {
            let row = t.book.get_mut(number(1)?)?;
            for (cell, word) in row.iter_mut().zip(&words[2..]) {
                *cell = word.parse().ok()?;
            }
        }
        "key" => {
            let key = unhex(words.get(2)?)?;
            *t.keys.get_mut(number(1)?)? = key.try_into().ok()?;
        }
        "text" => {
            let part = unhex(words.get(2)?)?;
            let start = number(1)?;
            let place = t.texts.get_mut(start..start + part.len())?;
            place.copy_from_slice(&part);
        }
        _ => return None,
    }
    Some(())
}

// One command's bytes. The reader wants an open first, so another command is read behind one.
fn read_command(bytes: &[u8]) -> Option<Command> {
    let open = Command::Open { owner: 0 }.bytes();
    let is_open = bytes.first() == open.first();
    let input = if is_open {
        bytes.to_vec()
    } else {
        [&open, bytes].concat()
    };
    let mut reader = Reader::new(&input);
    let first = reader.next_command().ok()??;
    if is_open {
        return Some(first);
    }
    reader.next_command().ok()?
}
