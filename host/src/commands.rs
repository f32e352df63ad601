// The commands of document 01's command file, their tags, and how they are written as bytes, for the reader and whatever makes files.

use crate::records::*;

#[derive(Clone, Debug, PartialEq, Eq)]
pub enum Command {
    Open {
        owner: Account,
    },
    Add {
        caller: Account,
        key: Key,
        account: Account,
        role: Role,
    },
    Revoke {
        caller: Account,
        key: Key,
        now: BlockTime,
    },
    Request {
        caller: Caller,
        text: Vec<u8>,
        now: BlockTime,
    },
    Approve {
        caller: Caller,
        request: RequestId,
        text: Vec<u8>,
        now: BlockTime,
    },
    Reject {
        caller: Caller,
        request: RequestId,
        now: BlockTime,
    },
    Status {
        request: RequestId,
    },
    Page {
        from: u64,
        limit: Option<u64>,
    },
}

// ---- tags

pub const OPEN: u8 = 0x08;
pub const ADD: u8 = 0x01;
pub const REVOKE: u8 = 0x02;
pub const REQUEST: u8 = 0x03;
pub const APPROVE: u8 = 0x04;
pub const REJECT: u8 = 0x05;
pub const STATUS: u8 = 0x06;
pub const PAGE: u8 = 0x07;

pub const PREDECESSOR: u8 = 0x10;
pub const SIGNER: u8 = 0x11;
pub const KEY: u8 = 0x12;
pub const ACCOUNT: u8 = 0x13;
pub const ROLE: u8 = 0x15;
pub const TIME: u8 = 0x16;
pub const NUMBER: u8 = 0x17;
pub const TEXT: u8 = 0x18;
pub const FROM: u8 = 0x19;
pub const LIMIT: u8 = 0x1A;

pub fn is_kind(tag: u8) -> bool {
    (ADD..=OPEN).contains(&tag)
}

pub fn is_field(tag: u8) -> bool {
    (PREDECESSOR..=LIMIT).contains(&tag) && tag != 0x14
}

// How many bytes a field's value has; a text has any number.
pub fn value_length(tag: u8) -> Option<usize> {
    match tag {
        TEXT => None,
        KEY => Some(32),
        ROLE => Some(1),
        TIME => Some(16),
        _ => Some(8),
    }
}

// ---- writing

// A field: its tag, its length, its value.
pub fn field(tag: u8, value: &[u8]) -> Vec<u8> {
    let length = u16::try_from(value.len()).expect("a value of two bytes' length");
    let mut out = vec![tag];
    out.extend(length.to_be_bytes());
    out.extend(value);
    out
}

fn number(tag: u8, value: u64) -> Vec<u8> {
    field(tag, &value.to_be_bytes())
}

fn time(now: BlockTime) -> Vec<u8> {
    let halves = [now.height.to_be_bytes(), now.timestamp_ns.to_be_bytes()];
    field(TIME, &halves.concat())
}

fn caller(c: &Caller) -> Vec<Vec<u8>> {
    vec![
        number(PREDECESSOR, c.predecessor),
        number(SIGNER, c.signer),
        field(KEY, &c.signer_key),
    ]
}

impl Command {
    // A command that changes no table, refused or not.
    pub fn reads(&self) -> bool {
        matches!(self, Command::Status { .. } | Command::Page { .. })
    }

    pub fn kind(&self) -> u8 {
        match self {
            Command::Open { .. } => OPEN,
            Command::Add { .. } => ADD,
            Command::Revoke { .. } => REVOKE,
            Command::Request { .. } => REQUEST,
            Command::Approve { .. } => APPROVE,
            Command::Reject { .. } => REJECT,
            Command::Status { .. } => STATUS,
            Command::Page { .. } => PAGE,
        }
    }

    // The inner fields, each with its tag and length.
    pub fn fields(&self) -> Vec<Vec<u8>> {
        match self {
            Command::Open { owner } => vec![number(SIGNER, *owner)],
            Command::Add {
                caller,
                key,
                account,
                role,
            } => vec![
                number(SIGNER, *caller),
                field(KEY, key),
                number(ACCOUNT, *account),
                field(ROLE, &[role.number() as u8]),
            ],
            Command::Revoke { caller, key, now } => {
                vec![number(SIGNER, *caller), field(KEY, key), time(*now)]
            }
            Command::Request {
                caller: c,
                text,
                now,
            } => [caller(c), vec![field(TEXT, text), time(*now)]].concat(),
            Command::Approve {
                caller: c,
                request,
                text,
                now,
            } => {
                let rest = vec![number(NUMBER, *request), field(TEXT, text), time(*now)];
                [caller(c), rest].concat()
            }
            Command::Reject {
                caller: c,
                request,
                now,
            } => [caller(c), vec![number(NUMBER, *request), time(*now)]].concat(),
            Command::Status { request } => vec![number(NUMBER, *request)],
            Command::Page { from, limit } => {
                let mut out = vec![number(FROM, *from)];
                out.extend(limit.map(|l| number(LIMIT, l)));
                out
            }
        }
    }

    pub fn bytes(&self) -> Vec<u8> {
        field(self.kind(), &self.fields().concat())
    }
}

pub fn file_of(commands: &[Command]) -> Vec<u8> {
    commands.iter().flat_map(|c| c.bytes()).collect()
}
