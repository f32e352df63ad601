// Document 01's whole example byte for byte, its pump-side examples, and what the history of a small ledger says.

use crate::commands::{file_of, Command};
use crate::pump;
use crate::rebuild::*;
use crate::records::*;
use crate::replay::{page_rows, replay, Desk, Tally};
use crate::sample::whole_example;
use crate::suite::last_answer;

fn lines(input: &[u8]) -> String {
    String::from_utf8(replay(input, &mut Desk::unopened())).unwrap()
}

#[test]
fn whole_example_byte_for_byte() {
    let mut input = vec![0x08, 0x00, 0x0B, 0x11, 0x00, 0x08, 0, 0, 0, 0, 0, 0, 0, 7];
    input.extend([0x06, 0x00, 0x0B, 0x17, 0x00, 0x08, 0, 0, 0, 0, 0, 0, 0, 0]);
    input.extend([0x09, 0x00, 0x00]);
    assert_eq!(input, whole_example());
    let expected = "0 ok\n1 refused 11 request not found\nstopped at 28: UnknownField\n\
        end 2 commands, 1 accepted, 1 refused\n";
    assert_eq!(lines(&input), expected);
}

#[test]
fn pump_side_examples() {
    for example in pump::examples() {
        let said = last_answer(&file_of(&example.commands));
        assert_eq!(said, example.says, "{}", example.name);
    }
}

fn ledger_after(commands: &[Command]) -> MemStore {
    let mut desk = Desk::unopened();
    for command in commands {
        desk.act(command, &mut page_rows());
    }
    desk.store.unwrap()
}

#[test]
fn a_key_added_again_starts_anew() {
    let again = pump::examples()
        .into_iter()
        .find(|e| e.name == "A added again");
    let store = ledger_after(&again.unwrap().commands);
    let a = store.principal(&[b'A'; 32]).unwrap();
    assert_eq!((a.active_from, a.pending, a.registration_id), (1, 0, 3));
    assert_eq!(request_status(&store, 0), Some(RequestStatus::Void));
    assert_eq!(store.revocation(0).map(|t| t.height), Some(100));
    assert_eq!(store.revocation(3), None);
}

#[test]
fn removing_a_key_moves_the_later_ones_down() {
    let mut commands = pump::cast();
    commands.push(Command::Revoke {
        caller: 7,
        key: [b'B'; 32],
        now: BlockTime {
            height: 1,
            timestamp_ns: 2,
        },
    });
    let store = ledger_after(&commands);
    let keys: Vec<u8> = store.principals.iter().map(|(k, _)| k[0]).collect();
    assert_eq!(keys, b"AC");
}

#[test]
fn every_kind_has_its_line() {
    let commands = crate::inputs::one_of_each();
    let expected = "0 ok\n1 ok 0\n2 ok 1\n3 ok 0\n4 ok 1\n5 ok 0\n6 ok 1\n7 ok Approved\n\
        8 ok 1 0\n9 ok 1 0\n10 ok 0\nend 11 commands, 11 accepted, 0 refused\n";
    assert_eq!(lines(&file_of(&commands)), expected);
}

#[test]
fn every_status_has_its_name() {
    let names: Vec<&str> = RequestStatus::ALL.iter().map(|s| s.name()).collect();
    assert_eq!(names, ["Pending", "Approved", "Rejected", "Void"]);
    let numbers: Vec<u64> = RequestStatus::ALL.iter().map(|s| s.number()).collect();
    assert_eq!(numbers, [0, 1, 2, 3]);
}

#[test]
fn a_tally_stays_at_the_largest_number() {
    let mut tally = Tally {
        commands: u64::MAX,
        accepted: u64::MAX,
        refused: 4,
    };
    tally.count(true);
    assert_eq!((tally.commands, tally.accepted), (u64::MAX, u64::MAX));
    tally.count(false);
    assert_eq!(tally.refused, 5);
}

#[test]
fn a_page_writes_whole_rows_and_leaves_the_rest() {
    let commands = crate::inputs::one_of_each();
    let store = ledger_after(&commands);
    let mut rows = [[9; 8]; 2];
    assert_eq!(page(&store, 0, 5, &mut rows), Ok(1));
    assert_eq!(rows, [[0, 0, 0, 1, 12, 1, 12, 1], [9; 8]]);
}

#[test]
fn a_walk_by_pages_lists_the_log() {
    let store = crate::bench::filled(2, crate::maker::drawn).store.unwrap();
    let mut walked = Vec::new();
    loop {
        let proofs = approvals(&store, walked.len() as u64, 7);
        if proofs.is_empty() {
            break;
        }
        walked.extend(proofs.into_iter().map(|p| p.request_id));
    }
    assert_eq!(walked, store.approval_log);
    assert_eq!(walked.len(), 256);
}
