// The comparison of one case: a command file through both sides, or one call on lent tables. A difference is told in words.

use crate::commands::Command;
use crate::damage::Call;
use crate::layout::{encode, Tables};
use crate::proofs::{self, EndsRow, ProofRow};
use crate::reader::read_all;
use crate::rebuild::*;
use crate::records::*;
use crate::replay::{line, replay, Desk, Tally};
use crate::sound;
use crate::subject::Subject;
use std::fmt::Debug;
use std::rc::Rc;

pub type Verdict = Result<(), String>;

// Room for the lines of any input, and what it holds before a run; a run writes no byte past its last line.
const OUT_ROOM: usize = 1 << 21;
const UNWRITTEN: u8 = 0xA5;
const BLANK_ROW: Row = [0xA5A5_A5A5; 8];
const BLANK_PROOF: ProofRow = ProofRow {
    numbers: [0xA5A5_A5A5; 12],
    agent_key: [UNWRITTEN; 32],
    approver_key: [UNWRITTEN; 32],
};
const BLANK_ENDS: EndsRow = [0xA5A5_A5A5; 6];

// How often each refusal, fault and accepted kind was met.
#[derive(Clone, Debug, Default)]
pub struct Seen {
    pub refusals: [u64; 22],
    pub faults: [u64; 7],
    pub accepted: [u64; 9],
    pub unsound: u64,
    pub commands: u64,
}

impl Seen {
    fn note(&mut self, command: &Command, outcome: Outcome) {
        self.commands += 1;
        self.refusals[outcome.refusal as usize] += 1;
        if outcome.accepted() {
            self.accepted[command.kind() as usize] += 1;
        }
    }
}

// Compares a subject with the rebuild, and keeps the buffers that it lends.
pub struct Comparer<S: Subject> {
    pub ours: S,
    pub seen: Seen,
    used: Rc<Tables>,
    out: Vec<u8>,
}

// Between two commands: the tables as they must be, and the ledger that ours show, once it was asked for; both stand until a change.
struct Now {
    tables: Tables,
    shown: Option<Result<MemStore, sound::Clause>>,
}

// Tables of the right lengths that were in use for something else.
fn used_tables() -> Tables {
    let mut tables = Tables::zero();
    tables.book.fill([u64::MAX; 6]);
    tables.keys.fill([UNWRITTEN; 32]);
    tables.texts.fill(UNWRITTEN);
    tables
}

fn same<T: PartialEq + Debug>(what: &str, ours: &T, theirs: &T) -> Verdict {
    if ours == theirs {
        return Ok(());
    }
    Err(format!("{what}: ours {ours:?}, the rebuild's {theirs:?}"))
}

impl<S: Subject> Comparer<S> {
    pub fn new(ours: S) -> Comparer<S> {
        Comparer {
            ours,
            seen: Seen::default(),
            used: Rc::new(used_tables()),
            out: vec![UNWRITTEN; OUT_ROOM],
        }
    }

    // A whole file in one call, on tables that were in use.
    pub fn whole_file(&mut self, input: &[u8]) -> Verdict {
        let used = Rc::clone(&self.used);
        self.file_on(&used, input)
    }

    // The same on tables of any lengths and contents: the file's lines, and the tables afterwards.
    pub fn file_on(&mut self, tables: &Tables, input: &[u8]) -> Verdict {
        self.ours.load(tables);
        if let (_, Some(stop)) = read_all(input) {
            self.seen.faults[stop.fault as usize] += 1;
        }
        let mut desk = Desk {
            sized: tables.sized(),
            store: None,
        };
        let lines = replay(input, &mut desk);
        self.replayed(input, &lines)?;
        let after = desk.store.as_ref().map(encode);
        let after = after.as_ref().unwrap_or(tables);
        same_tables("after the file", self.ours.tables(), after)
    }

    fn replayed(&mut self, input: &[u8], lines: &[u8]) -> Verdict {
        let outcome = self.ours.replay(input, &mut self.out);
        let written = (outcome.number as usize).min(OUT_ROOM);
        let ours = String::from_utf8_lossy(&self.out[..written]).into_owned();
        let margin = (written + 64).min(OUT_ROOM);
        let past = self.out[written..margin].iter().all(|b| *b == UNWRITTEN);
        self.out[..written].fill(UNWRITTEN);
        same("the replay's refusal", &outcome.refusal, &0)?;
        same_lines(&ours, &String::from_utf8_lossy(lines))?;
        same("bytes past the last line kept", &past, &true)
    }

    // The same file command by command: each answer, row and line, and after each command all that the ledger shows.
    pub fn by_command(&mut self, input: &[u8]) -> Verdict {
        let (commands, _) = read_all(input);
        let mut desk = Desk::unopened();
        self.ours.load(&self.used);
        let mut now = Now {
            tables: Tables::clone(&self.used),
            shown: None,
        };
        let mut tally = Tally::default();
        for command in &commands {
            let step = self.one_command(command, &mut desk, &mut now, tally.commands);
            let outcome = step.map_err(|e| format!("command {}: {e}", tally.commands))?;
            tally.count(outcome.accepted());
        }
        self.proves_the_same(&desk)
    }

    // Every proof and the revocations behind it, once a file.
    fn proves_the_same(&self, desk: &Desk) -> Verdict {
        let store = match &desk.store {
            Some(store) => store,
            None => return Ok(()),
        };
        for n in 0..store.request_count() + 1 {
            self.same_reads(n, Some(store))?;
        }
        match sound::decode(self.ours.tables()) {
            Ok(shown) => same_proofs(&shown, store),
            Err(_) => Ok(()),
        }
    }

    // One proof read, and the ends of the two registrations with its number and the next; no store is no sound ledger.
    fn same_reads(&self, n: u64, store: Option<&MemStore>) -> Verdict {
        let (mut ours, mut theirs) = (BLANK_PROOF, BLANK_PROOF);
        let answers = (
            self.ours.proof(n, &mut ours),
            proofs::proof(store, n, &mut theirs),
        );
        same(&format!("answer for proof {n}"), &answers.0, &answers.1)?;
        same(&format!("lent for proof {n}"), &ours, &theirs)?;
        let (mut ours, mut theirs) = (BLANK_ENDS, BLANK_ENDS);
        let answers = (
            self.ours.revocations(n, n + 1, &mut ours),
            proofs::revocations(store, n, n + 1, &mut theirs),
        );
        same(&format!("answer for ends {n}"), &answers.0, &answers.1)?;
        same(&format!("lent for ends {n}"), &ours, &theirs)
    }

    fn one_command(
        &mut self,
        command: &Command,
        desk: &mut Desk,
        now: &mut Now,
        index: u64,
    ) -> Result<Outcome, String> {
        let mut rows = vec![BLANK_ROW; MAX_PAGE_SIZE as usize + 1];
        let mut our_rows = rows.clone();
        let theirs = desk.act(command, &mut rows);
        let ours = self.ours.call(command, &mut our_rows);
        self.seen.note(command, theirs);
        same("the answer", &ours, &theirs)?;
        same("the lent rows", &our_rows, &rows)?;
        let our_line = line(index, command, ours, &our_rows);
        same("the line", &our_line, &line(index, command, theirs, &rows))?;
        if theirs.accepted() && !command.reads() {
            now.tables = desk.store.as_ref().map_or_else(Tables::zero, encode);
            now.shown = None;
        }
        same_tables("after the command", self.ours.tables(), &now.tables)?;
        let shown = now
            .shown
            .get_or_insert_with(|| sound::decode(self.ours.tables()));
        match (&desk.store, shown) {
            (Some(store), Ok(shown)) => same_ledger(shown, store)?,
            (Some(_), Err(clause)) => return Err(format!("our tables break {clause:?}")),
            (None, _) => (),
        }
        Ok(theirs)
    }

    // One call on given tables: 20 where the independent check finds them unsound, else what the rebuild says of their ledger.
    pub fn single_call(&mut self, call: &Call) -> Verdict {
        self.ours.load(&call.tables);
        let found = sound::decode(&call.tables);
        same("is_sound", &self.ours.is_sound(), &found.is_ok())?;
        self.seen.unsound += u64::from(found.is_err());
        let mut desk = Desk {
            sized: call.tables.sized(),
            store: found.ok(),
        };
        for n in [0, 1, 255, u64::MAX - 1] {
            self.same_reads(n, desk.store.as_ref())?;
        }
        let mut rows = vec![BLANK_ROW; call.room];
        let mut our_rows = rows.clone();
        let theirs = desk.act(&call.command, &mut rows);
        let ours = self.ours.call(&call.command, &mut our_rows);
        self.seen.note(&call.command, theirs);
        same("the answer", &ours, &theirs)?;
        same("the lent rows", &our_rows, &rows)?;
        let after = match (theirs.accepted(), &desk.store) {
            (true, Some(store)) => encode(store),
            _ => call.tables.clone(),
        };
        same_tables("after the call", self.ours.tables(), &after)
    }
}

// ---- differences, the first one told

fn same_lines(ours: &str, theirs: &str) -> Verdict {
    let (mut a, mut b) = (ours.split('\n'), theirs.split('\n'));
    let mut number = 0;
    loop {
        let (x, y) = (a.next(), b.next());
        if x.is_none() && y.is_none() {
            return Ok(());
        }
        same(&format!("output line {number}"), &x, &y)?;
        number += 1;
    }
}

fn same_rows<T: PartialEq + Debug>(what: &str, ours: &[T], theirs: &[T]) -> Verdict {
    if ours == theirs {
        return Ok(());
    }
    same(&format!("{what}, length"), &ours.len(), &theirs.len())?;
    let at = ours.iter().zip(theirs).position(|(a, b)| a != b);
    let at = at.unwrap_or(0);
    same(&format!("{what}, row {at}"), &ours[at], &theirs[at])
}

fn same_tables(when: &str, ours: &Tables, theirs: &Tables) -> Verdict {
    same_rows(&format!("book {when}"), &ours.book, &theirs.book)?;
    same_rows(&format!("keys {when}"), &ours.keys, &theirs.keys)?;
    same_rows(&format!("texts {when}"), &ours.texts, &theirs.texts)
}

// Every status, pending count, slot and revocation, and then every field. Revocations have no order of their own.
pub fn same_ledger(ours: &MemStore, theirs: &MemStore) -> Verdict {
    same("requests", &ours.requests.len(), &theirs.requests.len())?;
    for (a, b) in ours.requests.iter().zip(&theirs.requests) {
        let statuses = (status_of(ours, a), status_of(theirs, b));
        same("a status", &statuses.0, &statuses.1)?;
    }
    for (key, principal) in &theirs.principals {
        let pending = ours.principal(key).map(|p| p.pending);
        same("a key's pending count", &pending, &Some(principal.pending))?;
    }
    same("slots", &ours.approval_log, &theirs.approval_log)?;
    let count = theirs.registration_count;
    same("registrations", &ours.registration_count, &count)?;
    for g in 0..count + 1 {
        let (a, b) = (ours.revocation(g), theirs.revocation(g));
        same("a revocation", &a, &b)?;
    }
    same(
        "revocations",
        &ours.revocations.len(),
        &theirs.revocations.len(),
    )?;
    same("owner", &ours.owner, &theirs.owner)?;
    same("keys", &ours.principals, &theirs.principals)?;
    same("requests", &ours.requests, &theirs.requests)
}

fn same_proofs(ours: &MemStore, theirs: &MemStore) -> Verdict {
    for n in 0..theirs.request_count() + 1 {
        let (a, b) = (approval(ours, n), approval(theirs, n));
        same(&format!("proof of {n}"), &a, &b)?;
        let a = a.map(|proof| proof_revocations(ours, &proof));
        let b = b.map(|proof| proof_revocations(theirs, &proof));
        same(&format!("revocations behind {n}"), &a, &b)?;
    }
    Ok(())
}
