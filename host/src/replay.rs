// A command file replayed by the rebuild, with document 01's output lines. The line of one command serves both sides.

use crate::commands::Command;
use crate::reader::Reader;
use crate::rebuild::*;
use crate::records::*;

// What the rebuild has before it: tables of right or wrong lengths, and the sound ledger in them, if they hold one.
#[derive(Clone, Debug)]
pub struct Desk {
    pub sized: bool,
    pub store: Option<MemStore>,
}

impl Desk {
    // Tables of the right lengths that hold anything.
    pub fn unopened() -> Desk {
        Desk {
            sized: true,
            store: None,
        }
    }

    pub fn act(&mut self, command: &Command, rows: &mut [Row]) -> Outcome {
        Outcome::from(match command {
            Command::Open { owner } => self.open(*owner),
            _ => match &mut self.store {
                Some(store) => answer(store, command, rows),
                None => Err(Refusal::Damaged),
            },
        })
    }

    fn open(&mut self, owner: Account) -> Result<u64, Refusal> {
        if !self.sized {
            return Err(Refusal::Damaged);
        }
        self.store = Some(MemStore::new(owner));
        Ok(0)
    }
}

// A change or a read on a sound ledger; the number is the one that its line ends in.
fn answer(store: &mut MemStore, command: &Command, rows: &mut [Row]) -> Result<u64, Refusal> {
    match command {
        Command::Open { .. } => Err(Refusal::Damaged), // never handed on to here
        Command::Add {
            caller,
            key,
            account,
            role,
        } => add_principal(store, *caller, *key, *account, *role).map(|p| p.registration_id),
        Command::Revoke { caller, key, now } => {
            revoke_key(store, *caller, key, *now).map(|p| p.registration_id)
        }
        Command::Request { caller, text, now } => {
            request_action(store, caller, text.clone(), *now).map(|r| r.id)
        }
        Command::Approve {
            caller,
            request,
            text,
            now,
        } => approve(store, caller, *request, text, *now).map(|p| p.approval_index),
        Command::Reject {
            caller,
            request,
            now,
        } => reject(store, caller, *request, *now).map(|r| r.id),
        Command::Status { request } => {
            let status = request_status(store, *request);
            status.map(|s| s.number()).ok_or(Refusal::RequestNotFound)
        }
        Command::Page { from, limit } => {
            let limit = limit.unwrap_or(DEFAULT_PAGE_SIZE);
            page(store, *from, limit, rows).map(|n| n as u64)
        }
    }
}

// ---- lines

// The tally of a run; each number stays where it is once it is the largest.
#[derive(Clone, Copy, Debug, Default, PartialEq, Eq)]
pub struct Tally {
    pub commands: u64,
    pub accepted: u64,
    pub refused: u64,
}

impl Tally {
    pub fn count(&mut self, accepted: bool) {
        let told = if accepted {
            &mut self.accepted
        } else {
            &mut self.refused
        };
        *told = told.saturating_add(1);
        self.commands = self.commands.saturating_add(1);
    }

    pub fn line(&self) -> String {
        let Tally {
            commands,
            accepted,
            refused,
        } = self;
        format!("end {commands} commands, {accepted} accepted, {refused} refused\n")
    }
}

// The line of command number `index`.
pub fn line(index: u64, command: &Command, outcome: Outcome, rows: &[Row]) -> String {
    match outcome.told() {
        Ok(number) => format!("{index} ok{}\n", ending(command, number, rows)),
        Err(refusal) => {
            let (number, text) = (refusal.number(), refusal.as_str());
            format!("{index} refused {number} {text}\n")
        }
    }
}

fn ending(command: &Command, number: u64, rows: &[Row]) -> String {
    match command {
        Command::Open { .. } => String::new(),
        Command::Status { .. } => {
            let status = RequestStatus::ALL.get(number as usize);
            format!(" {}", status.map_or("?", |s| s.name()))
        }
        Command::Page { .. } => {
            let mut out = format!(" {number}");
            for row in rows.iter().take(number as usize) {
                out += &format!(" {}", row[1]);
            }
            out
        }
        _ => format!(" {number}"),
    }
}

pub fn page_rows() -> Vec<Row> {
    vec![[0; 8]; MAX_PAGE_SIZE as usize]
}

// The whole run: each command read wholly and then done, up to the first fault or the input's end.
pub fn replay(input: &[u8], desk: &mut Desk) -> Vec<u8> {
    let mut rows = page_rows();
    let mut tally = Tally::default();
    let mut out = String::new();
    let mut reader = Reader::new(input);
    loop {
        match reader.next_command() {
            Ok(Some(command)) => {
                let outcome = desk.act(&command, &mut rows);
                out += &line(tally.commands, &command, outcome, &rows);
                tally.count(outcome.accepted());
            }
            Ok(None) => break,
            Err(stop) => {
                out += &format!("stopped at {}: {}\n", stop.place, stop.fault.name());
                break;
            }
        }
    }
    out += &tally.line();
    out.into_bytes()
}
