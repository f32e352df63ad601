// The independent check finds each way in which tables can fail to be a sound ledger's; one test a clause.

use crate::commands::Command;
use crate::layout::*;
use crate::pump::signed;
use crate::rebuild::*;
use crate::records::*;
use crate::replay::{page_rows, Desk};
use crate::sound::*;

const NOON: BlockTime = BlockTime {
    height: 10,
    timestamp_ns: 20,
};
const A: Key = [b'A'; 32];
const B: Key = [b'B'; 32];
const C: Key = [b'C'; 32];
const D: Key = [b'D'; 32];

fn add(key: Key, account: Account, role: Role) -> Command {
    Command::Add {
        caller: 7,
        key,
        account,
        role,
    }
}

fn ask(account: Account, key: Key, text: &[u8]) -> Command {
    Command::Request {
        caller: signed(account, key),
        text: text.to_vec(),
        now: NOON,
    }
}

fn approve(request: RequestId, text: &[u8]) -> Command {
    Command::Approve {
        caller: signed(2, B),
        request,
        text: text.to_vec(),
        now: NOON,
    }
}

// Keys A, B, C and D, the last under its second registration, number 4, since request 3. Of five requests 0 and 3 are
// approved, 1 is rejected, 2 is D's old one and void, 4 waits under A. Registration 3 is revoked.
fn ledger() -> MemStore {
    let revoke = Command::Revoke {
        caller: 7,
        key: D,
        now: NOON,
    };
    let reject = Command::Reject {
        caller: signed(2, B),
        request: 1,
        now: NOON,
    };
    let commands = [
        Command::Open { owner: 7 },
        add(A, 1, Role::Agent),
        add(B, 2, Role::Approver),
        add(C, 1, Role::Approver),
        add(D, 3, Role::Agent),
        ask(1, A, b"maxrate=50"),
        approve(0, b"maxrate=50"),
        ask(1, A, b"x"),
        reject,
        ask(3, D, b"yy"),
        revoke,
        add(D, 3, Role::Agent),
        ask(3, D, b"zzz"),
        ask(1, A, b"w"),
        approve(3, b"zzz"),
    ];
    let mut desk = Desk::unopened();
    for command in &commands {
        assert!(desk.act(command, &mut page_rows()).accepted());
    }
    desk.store.unwrap()
}

fn finds(clause: Clause, change: impl Fn(&mut Tables)) {
    let mut tables = encode(&ledger());
    change(&mut tables);
    assert_eq!(broken(&tables), Some(clause));
    assert_eq!(decode(&tables), Err(clause));
}

fn stays_sound(change: impl Fn(&mut Tables)) {
    let mut tables = encode(&ledger());
    change(&mut tables);
    assert_eq!(broken(&tables), None);
}

#[test]
fn sound_as_it_is() {
    stays_sound(|_| ());
    assert_eq!(decode(&encode(&ledger())), Ok(ledger()));
}

#[test]
fn sound_where_document_01_leaves_it_open() {
    stays_sound(|t| t.book[0][0] = 99);
    stays_sound(|t| t.texts[0] ^= 1);
    stays_sound(|t| t.book[ASKED][4] = u64::MAX);
    stays_sound(|t| t.book[DECIDED][3] = 0);
    stays_sound(|t| t.keys[APPROVERS] = [0; 32]);
    stays_sound(|t| t.book[REVOKED + 3][1] = 0);
    stays_sound(|t| {
        t.book.swap(HOLDERS, HOLDERS + 1);
        t.keys.swap(0, 1);
    });
    stays_sound(|t| t.keys[2] = [0; 32]);
    stays_sound(|t| t.book[HOLDERS + 1][3] = 5);
}

#[test]
fn lengths() {
    finds(Clause::Lengths, |t| t.book.truncate(BOOK_ROWS - 1));
    finds(Clause::Lengths, |t| t.book.push([0; 6]));
    finds(Clause::Lengths, |t| t.keys.truncate(KEY_ROWS - 1));
    finds(Clause::Lengths, |t| t.keys.push([0; 32]));
    finds(Clause::Lengths, |t| t.texts.truncate(TEXT_BYTES - 1));
    finds(Clause::Lengths, |t| t.texts.push(0));
    finds(Clause::Lengths, |t| t.book.clear());
}

#[test]
fn counts() {
    for (column, room) in [(1, 64), (2, 256), (3, 256), (4, 256), (5, 32768)] {
        finds(Clause::Counts, |t| t.book[0][column] = room + 1);
        finds(Clause::Counts, |t| t.book[0][column] = u64::MAX);
    }
}

#[test]
fn unused_room() {
    let rows = [
        (HOLDERS + 4, ASKED - 1),
        (ASKED + 5, DECIDED - 1),
        (DECIDED + 5, REVOKED - 1),
        (REVOKED + 5, LOG - 1),
        (LOG + 2, BOOK_ROWS - 1),
    ];
    for (first, last) in rows {
        finds(Clause::UnusedRoom, |t| t.book[first][0] = 1);
        finds(Clause::UnusedRoom, |t| t.book[last][5] = 1);
    }
    for row in [
        4,
        63,
        AGENTS + 5,
        APPROVERS - 1,
        APPROVERS + 5,
        KEY_ROWS - 1,
    ] {
        finds(Clause::UnusedRoom, |t| t.keys[row][31] = 1);
    }
    finds(Clause::UnusedRoom, |t| t.texts[17] = 1);
    finds(Clause::UnusedRoom, |t| t.texts[TEXT_BYTES - 1] = 1);
}

#[test]
fn absent_fields() {
    finds(Clause::AbsentFields, |t| t.book[HOLDERS][5] = 1);
    for column in 1..6 {
        finds(Clause::AbsentFields, |t| t.book[LOG + 1][column] = 1);
        finds(Clause::AbsentFields, |t| t.book[REVOKED][column] = 1);
        finds(Clause::AbsentFields, |t| t.book[DECIDED + 2][column] = 1);
    }
    for column in 3..6 {
        finds(Clause::AbsentFields, |t| t.book[REVOKED + 3][column] = 1);
    }
    finds(Clause::AbsentFields, |t| t.keys[APPROVERS + 2][0] = 1);
    finds(Clause::AbsentFields, |t| t.book[DECIDED + 1][1] = 1);
}

#[test]
fn roles() {
    finds(Clause::Roles, |t| t.book[HOLDERS][1] = 2);
    finds(Clause::Roles, |t| t.book[HOLDERS + 3][1] = u64::MAX);
}

#[test]
fn marks() {
    finds(Clause::Marks, |t| t.book[DECIDED][0] = 3);
    finds(Clause::Marks, |t| t.book[DECIDED][0] = 1 << 32);
    finds(Clause::Marks, |t| t.book[REVOKED + 3][0] = 2);
}

#[test]
fn texts() {
    finds(Clause::Texts, |t| t.book[ASKED][2] = 1);
    finds(Clause::Texts, |t| t.book[ASKED + 1][2] = 9);
    finds(Clause::Texts, |t| t.book[ASKED + 1][2] = 11);
    finds(Clause::Texts, |t| t.book[ASKED + 4][3] = 2);
    finds(Clause::Texts, |t| t.book[ASKED + 4][3] = u64::MAX);
    finds(Clause::Texts, |t| t.book[0][5] = 18);
    finds(Clause::Texts, |t| {
        t.book[ASKED + 4][3] = 0;
        t.book[0][5] = 16;
        t.texts[16] = 0;
    });
}

#[test]
fn texts_of_more_than_2048_bytes() {
    let with_last_text = |length: u64| {
        let mut t = encode(&ledger());
        t.book[ASKED + 4][3] = length;
        t.book[0][5] = 16 + length;
        broken(&t)
    };
    assert_eq!(with_last_text(2048), None);
    assert_eq!(with_last_text(2049), Some(Clause::Texts));
}

#[test]
fn distinct_keys() {
    finds(Clause::DistinctKeys, |t| t.keys[2] = t.keys[1]);
    finds(Clause::DistinctKeys, |t| t.keys[0] = t.keys[3]);
}

#[test]
fn registrations() {
    // in force and revoked
    finds(Clause::Registrations, |t| t.book[REVOKED][0] = 1);
    // neither
    finds(Clause::Registrations, |t| t.book[REVOKED + 3] = [0; 6]);
    // under two keys
    finds(Clause::Registrations, |t| t.book[HOLDERS + 2][2] = 1);
    // a key's number that is none
    finds(Clause::Registrations, |t| t.book[HOLDERS + 2][2] = 5);
    finds(Clause::Registrations, |t| t.book[HOLDERS + 2][2] = u64::MAX);
    // a number more than there are registrations
    finds(Clause::Registrations, |t| t.book[0][2] = 6);
}

#[test]
fn active_from() {
    finds(Clause::ActiveFrom, |t| t.book[HOLDERS + 1][3] = 6);
    finds(Clause::ActiveFrom, |t| t.book[HOLDERS][3] = u64::MAX);
}

#[test]
fn live_exactly() {
    // a request of its own from before it was added
    finds(Clause::LiveExactly, |t| t.book[HOLDERS + 3][3] = 4);
    finds(Clause::LiveExactly, |t| t.book[HOLDERS][3] = 1);
    // an old request revived
    finds(Clause::LiveExactly, |t| t.book[HOLDERS + 3][3] = 2);
    // an Approver with requests
    finds(Clause::LiveExactly, |t| t.book[HOLDERS][1] = 1);
    // accounts that differ
    finds(Clause::LiveExactly, |t| t.book[HOLDERS][0] = 9);
    finds(Clause::LiveExactly, |t| t.book[ASKED + 4][0] = 9);
    // another registration than the key's
    finds(Clause::LiveExactly, |t| t.book[ASKED + 4][1] = 3);
    finds(Clause::LiveExactly, |t| t.book[ASKED + 2][1] = 4);
}

#[test]
fn own_key() {
    finds(Clause::OwnKey, |t| t.keys[AGENTS] = [0x55; 32]);
    finds(Clause::OwnKey, |t| t.keys[3] = [0x55; 32]);
    finds(Clause::OwnKey, |t| {
        t.keys[AGENTS + 2] = [0x55; 32];
        t.book[ASKED + 2][1] = 2;
    });
}

#[test]
fn decided_by_another_account() {
    finds(Clause::DecidedByOther, |t| t.book[DECIDED][2] = 1);
    finds(Clause::DecidedByOther, |t| t.book[DECIDED + 1][2] = 1);
    finds(Clause::DecidedByOther, |t| t.book[DECIDED + 3][2] = 3);
}

#[test]
fn numbers_below_the_count() {
    finds(Clause::KnownNumbers, |t| t.book[ASKED + 2][1] = 5);
    finds(Clause::KnownNumbers, |t| t.book[DECIDED][3] = 5);
    finds(Clause::KnownNumbers, |t| t.book[DECIDED + 1][3] = u64::MAX);
}

#[test]
fn log() {
    // another request, one that is rejected, one that is none
    finds(Clause::Log, |t| t.book[LOG][0] = 3);
    finds(Clause::Log, |t| t.book[LOG][0] = 1);
    finds(Clause::Log, |t| t.book[LOG][0] = 5);
    finds(Clause::Log, |t| t.book[LOG][0] = u64::MAX);
    // indices that are not the slots
    finds(Clause::Log, |t| t.book[DECIDED][1] = 1);
    finds(Clause::Log, |t| t.book[DECIDED + 3][1] = 2);
    finds(Clause::Log, |t| t.book.swap(LOG, LOG + 1));
    // a slot too few, a slot too many
    finds(Clause::Log, |t| {
        t.book[0][4] = 1;
        t.book[LOG + 1] = [0; 6];
    });
    finds(Clause::Log, |t| t.book[0][4] = 3);
    // approved with no slot
    finds(Clause::Log, |t| t.book[DECIDED + 1][0] = 1);
}

#[test]
fn pending_counts() {
    finds(Clause::PendingCounts, |t| t.book[HOLDERS][4] = 0);
    finds(Clause::PendingCounts, |t| t.book[HOLDERS][4] = 2);
    // an Approver's, and that of a key whose request is void
    finds(Clause::PendingCounts, |t| t.book[HOLDERS + 1][4] = 1);
    finds(Clause::PendingCounts, |t| t.book[HOLDERS + 3][4] = 1);
    // decided requests counted
    finds(Clause::PendingCounts, |t| t.book[HOLDERS][4] = 3);
}

#[test]
fn more_than_sixteen_pending() {
    let mut store = ledger();
    let waiting = store.requests[4].clone();
    for pending in 2..=17 {
        let mut request = waiting.clone();
        request.id = store.request_count();
        store.requests.push(request);
        store.principals[0].1.pending = pending;
        let expected = (pending > 16).then_some(Clause::PendingCounts);
        assert_eq!(broken(&encode(&store)), expected);
    }
}

#[test]
fn contents_of_any_kind_are_answered() {
    let mut tables = Tables::zero();
    assert_eq!(
        broken(&tables),
        None,
        "all zero is the empty ledger of owner 0"
    );
    for fill in [1, 2, 16, 64, 255, u64::MAX] {
        tables.book.fill([fill; 6]);
        tables.keys.fill([fill as u8; 32]);
        tables.texts.fill(fill as u8);
        assert!(broken(&tables).is_some());
    }
}
