// The comparison passes for the rebuild in tables, finds what a faulty ledger does, and reads back the cases that it writes.

use crate::cases::{load, save, Case};
use crate::commands::Command;
use crate::compare::Comparer;
use crate::damage::call;
use crate::generate::file;
use crate::layout::Tables;
use crate::mirror::Mirror;
use crate::records::*;
use crate::subject::Subject;

// A ledger with a fault: what it answers, and what it leaves in its tables, is changed after each call.
struct Faulty {
    inner: Mirror,
    spoil: fn(&Command, Outcome, &mut Tables) -> Outcome,
}

impl Subject for Faulty {
    fn name(&self) -> &'static str {
        "a faulty ledger"
    }

    fn tables(&self) -> &Tables {
        self.inner.tables()
    }

    fn load(&mut self, tables: &Tables) {
        self.inner.load(tables);
    }

    fn call(&mut self, command: &Command, rows: &mut [Row]) -> Outcome {
        let outcome = self.inner.call(command, rows);
        let mut tables = self.inner.tables().clone();
        let spoilt = (self.spoil)(command, outcome, &mut tables);
        self.inner.load(&tables);
        spoilt
    }

    fn is_sound(&self) -> bool {
        self.inner.is_sound()
    }

    fn replay(&mut self, input: &[u8], out: &mut [u8]) -> Outcome {
        self.inner.replay(input, out)
    }
}

// How many of some files and calls fail.
fn failures(spoil: fn(&Command, Outcome, &mut Tables) -> Outcome) -> usize {
    let inner = Mirror::new();
    let mut comparer = Comparer::new(Faulty { inner, spoil });
    let files = (0..60).filter(|case| {
        let input = file(1, *case);
        comparer.by_command(&input).is_err()
    });
    let files = files.count();
    let calls = (0..300).filter(|case| comparer.single_call(&call(1, *case)).is_err());
    files + calls.count()
}

fn refused(refusal: u64) -> Outcome {
    let number = 0;
    Outcome { refusal, number }
}

#[test]
fn the_rebuild_in_tables_is_as_the_rebuild() {
    assert_eq!(failures(|_, outcome, _| outcome), 0);
    let mut comparer = Comparer::new(Mirror::new());
    for case in 0..60 {
        assert_eq!(comparer.whole_file(&file(2, case)), Ok(()));
    }
}

#[test]
fn a_wrong_refusal_is_found() {
    let swapped = |_: &Command, outcome: Outcome, _: &mut Tables| match outcome.refusal {
        15 => refused(16),
        _ => outcome,
    };
    assert!(failures(swapped) > 0);
}

#[test]
fn a_wrong_number_is_found() {
    let late = |command: &Command, mut outcome: Outcome, _: &mut Tables| {
        if outcome.accepted() && command.kind() == 4 {
            outcome.number += 1;
        }
        outcome
    };
    assert!(failures(late) > 0);
}

#[test]
fn a_change_on_a_refusal_is_found() {
    let stray = |_: &Command, outcome: Outcome, t: &mut Tables| {
        if outcome.refusal == 11 {
            t.book[0][0] ^= 1;
        }
        outcome
    };
    assert!(failures(stray) > 0);
}

#[test]
fn a_wrong_pending_count_is_found() {
    let kept = |command: &Command, outcome: Outcome, t: &mut Tables| {
        if outcome.accepted() && command.kind() == 5 {
            t.book[1][4] += 1;
        }
        outcome
    };
    assert!(failures(kept) > 0);
}

#[test]
fn a_text_byte_left_over_is_found() {
    let left = |command: &Command, outcome: Outcome, t: &mut Tables| {
        if outcome.accepted() && command.kind() == 8 && t.sized() {
            t.texts[32767] = 1;
        }
        outcome
    };
    assert!(failures(left) > 0);
}

#[test]
fn damaged_tables_taken_for_sound_are_found() {
    let blind = |_: &Command, outcome: Outcome, _: &mut Tables| match outcome.refusal {
        20 => refused(11),
        _ => outcome,
    };
    assert!(failures(blind) > 0);
}

// A replay that loses a byte of its last line.
struct Short(Mirror);

impl Subject for Short {
    fn name(&self) -> &'static str {
        "a short writer"
    }
    fn tables(&self) -> &Tables {
        self.0.tables()
    }
    fn load(&mut self, tables: &Tables) {
        self.0.load(tables);
    }
    fn call(&mut self, command: &Command, rows: &mut [Row]) -> Outcome {
        self.0.call(command, rows)
    }
    fn is_sound(&self) -> bool {
        self.0.is_sound()
    }
    fn replay(&mut self, input: &[u8], out: &mut [u8]) -> Outcome {
        let mut outcome = self.0.replay(input, out);
        outcome.number -= 1;
        outcome
    }
}

#[test]
fn a_short_line_is_found() {
    let mut comparer = Comparer::new(Short(Mirror::new()));
    assert!(comparer.whole_file(&file(1, 0)).is_err());
}

#[test]
fn cases_are_read_back() {
    let directory = std::env::temp_dir().join(format!("brasstally-{}", std::process::id()));
    let again = |case: &Case| load(&save(&directory, "case", case).unwrap());
    for case in 0..40 {
        let (a, input) = (call(3, case), file(3, case));
        match again(&Case::Call(a.clone())) {
            Ok(Case::Call(b)) => assert_eq!(a, b),
            _ => panic!("a call is read back as a call"),
        }
        match again(&Case::File(input.clone())) {
            Ok(Case::File(b)) => assert_eq!(input, b),
            _ => panic!("a file is read back as a file"),
        }
        match again(&Case::FileOn(a.tables.clone(), input.clone())) {
            Ok(Case::FileOn(t, b)) => assert_eq!((a.tables, input), (t, b)),
            _ => panic!("a file on tables is read back as one"),
        }
    }
    std::fs::remove_dir_all(&directory).unwrap();
}
