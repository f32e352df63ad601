// The reader of document 01's command file, for both sides of the comparison: its faults in order, their places, and one command after the other.

use crate::commands::*;
use crate::records::*;

pub const INPUT_ROOM: usize = 65536;

// ---- faults

#[derive(Clone, Copy, Debug, PartialEq, Eq)]
pub enum Fault {
    MissingField,
    CutField,
    UnknownField,
    FieldOrder,
    FieldLength,
    BadRole,
    InputTooLong,
}

impl Fault {
    pub const ALL: [Fault; 7] = [
        Fault::MissingField,
        Fault::CutField,
        Fault::UnknownField,
        Fault::FieldOrder,
        Fault::FieldLength,
        Fault::BadRole,
        Fault::InputTooLong,
    ];

    pub fn name(self) -> &'static str {
        match self {
            Fault::MissingField => "MissingField",
            Fault::CutField => "CutField",
            Fault::UnknownField => "UnknownField",
            Fault::FieldOrder => "FieldOrder",
            Fault::FieldLength => "FieldLength",
            Fault::BadRole => "BadRole",
            Fault::InputTooLong => "InputTooLong",
        }
    }
}

#[derive(Clone, Copy, Debug, PartialEq, Eq)]
pub struct Stop {
    pub fault: Fault,
    pub place: usize,
}

// ---- fields

// The fields of one enclosing value: the next one's place and the value's end, both counted in the whole input.
struct Fields<'a> {
    input: &'a [u8],
    at: usize,
    end: usize,
}

impl<'a> Fields<'a> {
    fn stop<T>(&self, fault: Fault) -> Result<T, Stop> {
        Err(Stop {
            fault,
            place: self.at,
        })
    }

    fn is_empty(&self) -> bool {
        self.at == self.end
    }

    // The second to fourth rule: the tag of the field that stands here, which must be one that is due.
    fn tag(&self, due: impl Fn(u8) -> bool) -> Result<u8, Stop> {
        if self.end - self.at < 3 {
            return self.stop(Fault::CutField);
        }
        let tag = self.input[self.at];
        if !is_kind(tag) && !is_field(tag) {
            return self.stop(Fault::UnknownField);
        }
        if !due(tag) {
            return self.stop(Fault::FieldOrder);
        }
        Ok(tag)
    }

    // The fifth rule: where the value of the field that stands here ends.
    fn value_end(&self) -> Result<usize, Stop> {
        let high = self.input[self.at + 1] as usize;
        let low = self.input[self.at + 2] as usize;
        let end = self.at + 3 + high * 256 + low;
        if end > self.end {
            return self.stop(Fault::CutField);
        }
        Ok(end)
    }

    // The value of the field due, by all seven rules.
    fn field(&mut self, due: u8) -> Result<&'a [u8], Stop> {
        if self.is_empty() {
            return self.stop(Fault::MissingField);
        }
        let tag = self.tag(|t| t == due)?;
        let end = self.value_end()?;
        let value = &self.input[self.at + 3..end];
        if value_length(tag).map_or(false, |n| n != value.len()) {
            return self.stop(Fault::FieldLength);
        }
        if tag == ROLE && value[0] > 1 {
            return self.stop(Fault::BadRole);
        }
        self.at = end;
        Ok(value)
    }

    // Nothing is due any more, so any byte that is left is a fault.
    fn finish(&self) -> Result<(), Stop> {
        if self.is_empty() {
            return Ok(());
        }
        self.tag(|_| false).map(|_| ())
    }

    fn number(&mut self, due: u8) -> Result<u64, Stop> {
        Ok(number_of(self.field(due)?))
    }

    fn key(&mut self) -> Result<Key, Stop> {
        let mut key = [0; 32];
        key.copy_from_slice(self.field(KEY)?);
        Ok(key)
    }

    fn role(&mut self) -> Result<Role, Stop> {
        let value = self.field(ROLE)?;
        Ok(if value[0] == 0 {
            Role::Agent
        } else {
            Role::Approver
        })
    }

    fn time(&mut self) -> Result<BlockTime, Stop> {
        let value = self.field(TIME)?;
        Ok(BlockTime {
            height: number_of(&value[..8]),
            timestamp_ns: number_of(&value[8..]),
        })
    }

    fn text(&mut self) -> Result<Vec<u8>, Stop> {
        Ok(self.field(TEXT)?.to_vec())
    }

    fn caller(&mut self) -> Result<Caller, Stop> {
        Ok(Caller {
            predecessor: self.number(PREDECESSOR)?,
            signer: self.number(SIGNER)?,
            signer_key: self.key()?,
        })
    }

    fn limit(&mut self) -> Result<Option<u64>, Stop> {
        if self.is_empty() {
            return Ok(None);
        }
        self.number(LIMIT).map(Some)
    }

    // A command by its kind; fields are read in the order in which they are written here.
    fn command(&mut self, kind: u8) -> Result<Command, Stop> {
        Ok(match kind {
            OPEN => Command::Open {
                owner: self.number(SIGNER)?,
            },
            ADD => Command::Add {
                caller: self.number(SIGNER)?,
                key: self.key()?,
                account: self.number(ACCOUNT)?,
                role: self.role()?,
            },
            REVOKE => Command::Revoke {
                caller: self.number(SIGNER)?,
                key: self.key()?,
                now: self.time()?,
            },
            REQUEST => Command::Request {
                caller: self.caller()?,
                text: self.text()?,
                now: self.time()?,
            },
            APPROVE => Command::Approve {
                caller: self.caller()?,
                request: self.number(NUMBER)?,
                text: self.text()?,
                now: self.time()?,
            },
            REJECT => Command::Reject {
                caller: self.caller()?,
                request: self.number(NUMBER)?,
                now: self.time()?,
            },
            STATUS => Command::Status {
                request: self.number(NUMBER)?,
            },
            _ => Command::Page {
                from: self.number(FROM)?,
                limit: self.limit()?,
            },
        })
    }
}

fn number_of(bytes: &[u8]) -> u64 {
    bytes.iter().fold(0, |n, b| n << 8 | u64::from(*b))
}

// The commands of an input, one after the other.
pub struct Reader<'a> {
    fields: Fields<'a>,
}

impl<'a> Reader<'a> {
    pub fn new(input: &'a [u8]) -> Reader<'a> {
        let end = input.len();
        let at = 0;
        Reader {
            fields: Fields { input, at, end },
        }
    }

    // The next command, or none where the input ends after a first one. It is read wholly, or there is a fault.
    pub fn next_command(&mut self) -> Result<Option<Command>, Stop> {
        let outer = &mut self.fields;
        let first = outer.at == 0;
        if first && outer.input.len() > INPUT_ROOM {
            return outer.stop(Fault::InputTooLong);
        }
        if outer.is_empty() {
            return if first {
                outer.stop(Fault::MissingField)
            } else {
                Ok(None)
            };
        }
        let kind = outer.tag(|t| is_kind(t) && (t == OPEN) == first)?;
        let end = outer.value_end()?;
        let mut inner = Fields {
            input: outer.input,
            at: outer.at + 3,
            end,
        };
        let command = inner.command(kind)?;
        inner.finish()?;
        outer.at = end;
        Ok(Some(command))
    }
}

// The commands before the first fault, and that fault.
pub fn read_all(input: &[u8]) -> (Vec<Command>, Option<Stop>) {
    let mut reader = Reader::new(input);
    let mut commands = Vec::new();
    loop {
        match reader.next_command() {
            Ok(Some(command)) => commands.push(command),
            Ok(None) => return (commands, None),
            Err(stop) => return (commands, Some(stop)),
        }
    }
}
