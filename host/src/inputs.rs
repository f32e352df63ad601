// Inputs for the reader made one after another, none by chance: short ones, every tag, every length, every cut; and files at the input's limit.

use crate::commands::{field, file_of, Command};
use crate::reader::INPUT_ROOM;
use crate::records::*;

const NOON: BlockTime = BlockTime {
    height: 12,
    timestamp_ns: 1,
};

fn signed(account: Account, byte: u8) -> Caller {
    Caller {
        predecessor: account,
        signer: account,
        signer_key: [byte; 32],
    }
}

fn add(byte: u8, account: Account, role: Role) -> Command {
    Command::Add {
        caller: 7,
        key: [byte; 32],
        account,
        role,
    }
}

fn request(text: &[u8]) -> Command {
    Command::Request {
        caller: signed(1, b'A'),
        text: text.to_vec(),
        now: NOON,
    }
}

// A file that has every kind, a page with and without its limit, and answers of every sort.
pub fn one_of_each() -> Vec<Command> {
    vec![
        Command::Open { owner: 7 },
        add(b'A', 1, Role::Agent),
        add(b'B', 2, Role::Approver),
        request(b"maxrate=50"),
        request(b"x"),
        Command::Approve {
            caller: signed(2, b'B'),
            request: 0,
            text: b"maxrate=50".to_vec(),
            now: NOON,
        },
        Command::Reject {
            caller: signed(2, b'B'),
            request: 1,
            now: NOON,
        },
        Command::Status { request: 0 },
        Command::Page {
            from: 0,
            limit: None,
        },
        Command::Page {
            from: 0,
            limit: Some(1),
        },
        Command::Revoke {
            caller: 7,
            key: [b'A'; 32],
            now: NOON,
        },
    ]
}

// Every string of no, one or two bytes.
pub fn up_to_two_bytes() -> impl Iterator<Item = Vec<u8>> {
    let one = (0..=255u8).map(|a| vec![a]);
    let two = (0..=65535u16).map(|ab| ab.to_be_bytes().to_vec());
    std::iter::once(Vec::new()).chain(one).chain(two)
}

// An open and then each of these.
pub fn open_and_tail() -> impl Iterator<Item = Vec<u8>> {
    let open = Command::Open { owner: 7 }.bytes();
    up_to_two_bytes().map(move |tail| [&open[..], &tail].concat())
}

// An open stands first in a file, any other command after one; `last` is such a command's bytes, changed or not.
fn after_open(command: &Command, last: Vec<u8>) -> Vec<u8> {
    match command {
        Command::Open { .. } => last,
        _ => [Command::Open { owner: 7 }.bytes(), last].concat(),
    }
}

// A tag in place of the command's own, of each of its fields', and after its last field.
pub fn tagged(command: &Command, tag: u8) -> Vec<Vec<u8>> {
    let fields = command.fields();
    let mut out = vec![after_open(command, field(tag, &fields.concat()))];
    for at in 0..=fields.len() {
        let mut fields = fields.clone();
        fields.resize(fields.len().max(at + 1), field(0, &[]));
        fields[at][0] = tag;
        let last = field(command.kind(), &fields.concat());
        out.push(after_open(command, last));
    }
    out
}

pub fn every_tag() -> Vec<Vec<u8>> {
    let mut out = Vec::new();
    for command in one_of_each() {
        out.extend((0..=255).flat_map(|tag| tagged(&command, tag)));
    }
    out
}

// Another length of one field's value, the outer length fitting or not.
pub fn resized(command: &Command, at: usize, length: u8) -> [Vec<u8>; 2] {
    let fields = command.fields();
    let mut value = fields[at][3..].to_vec();
    value.resize(length as usize, 1);
    let mut fitting = fields.clone();
    fitting[at] = field(fields[at][0], &value);
    let mut claimed = fields;
    claimed[at][2] = length;
    [fitting, claimed].map(|changed| {
        let last = field(command.kind(), &changed.concat());
        after_open(command, last)
    })
}

// The command with its first fields alone: none, one, up to all but the last.
pub fn unfinished(command: &Command) -> Vec<Vec<u8>> {
    let fields = command.fields();
    let first = |n: usize| after_open(command, field(command.kind(), &fields[..n].concat()));
    (0..fields.len()).map(first).collect()
}

pub fn every_role() -> Vec<Vec<u8>> {
    let command = &one_of_each()[1];
    let with = |role| {
        let mut last = command.bytes();
        *last.last_mut().expect("a role") = role;
        after_open(command, last)
    };
    (0..=255).map(with).collect()
}

// Every length up to 40 of each field's value; and every value of a role.
pub fn every_length() -> Vec<Vec<u8>> {
    let mut out = Vec::new();
    for command in one_of_each() {
        for at in 0..command.fields().len() {
            out.extend((0..=40).flat_map(|length| resized(&command, at, length)));
        }
    }
    out.extend(every_role());
    out
}

// The file cut at each place.
pub fn every_cut() -> Vec<Vec<u8>> {
    let whole = file_of(&one_of_each());
    (0..whole.len()).map(|at| whole[..at].to_vec()).collect()
}

// The file with the byte at one place changed in a few ways.
pub fn changed(at: usize) -> Vec<Vec<u8>> {
    let whole = file_of(&one_of_each());
    let old = whole[at];
    let with = |byte| {
        let mut out = whole.clone();
        out[at] = byte;
        out
    };
    [0, 0xFF, old ^ 1, old ^ 0x80, old.wrapping_add(1)]
        .map(with)
        .to_vec()
}

pub fn every_cut_and_change() -> Vec<Vec<u8>> {
    let cuts = every_cut();
    let changes: Vec<Vec<u8>> = (0..cuts.len()).flat_map(changed).collect();
    [cuts, changes].concat()
}

// Files of just the longest length and of one byte more, and texts of the longest and of too great a length.
pub fn at_the_limit() -> Vec<Vec<u8>> {
    let mut commands = one_of_each();
    commands.pop();
    for length in [2047, 2048, 2049, 4000] {
        commands.push(request(&vec![5; length]));
    }
    let near = file_of(&commands);
    let frame = request(b"").bytes().len();
    let filling = |length: usize| {
        let rest = length - near.len() - frame;
        [near.clone(), request(&vec![6; rest]).bytes()].concat()
    };
    let mut out: Vec<Vec<u8>> = (INPUT_ROOM - 1..=INPUT_ROOM + 1).map(filling).collect();
    out.push(vec![8; INPUT_ROOM + 1]);
    out.push(vec![0; 2 * INPUT_ROOM]);
    out.push(vec![8; INPUT_ROOM]);
    out
}
