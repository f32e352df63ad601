// Each refusal is reached, and where two apply the order of document 01 decides.

use crate::commands::Command;
use crate::pump;
use crate::rebuild::*;
use crate::records::*;
use crate::replay::{page_rows, Desk};

const NOON: BlockTime = BlockTime {
    height: 1,
    timestamp_ns: 1,
};
const A: Key = [b'A'; 32];
const B: Key = [b'B'; 32];
const C: Key = [b'C'; 32];
const D: Key = [b'D'; 32];

struct Table {
    desk: Desk,
}

impl Table {
    fn cast() -> Table {
        let mut table = Table {
            desk: Desk::unopened(),
        };
        for command in pump::cast() {
            table.act(&command);
        }
        table
    }

    fn act(&mut self, command: &Command) -> u64 {
        self.desk.act(command, &mut page_rows()).refusal
    }

    fn add(&mut self, caller: Account, key: Key) -> u64 {
        self.act(&Command::Add {
            caller,
            key,
            account: 1,
            role: Role::Agent,
        })
    }

    fn revoke(&mut self, caller: Account, key: Key) -> u64 {
        self.act(&Command::Revoke {
            caller,
            key,
            now: NOON,
        })
    }

    fn request(&mut self, caller: Caller, text: &[u8]) -> u64 {
        self.act(&Command::Request {
            caller,
            text: text.to_vec(),
            now: NOON,
        })
    }

    fn approve(&mut self, caller: Caller, request: RequestId, text: &[u8]) -> u64 {
        self.act(&Command::Approve {
            caller,
            request,
            text: text.to_vec(),
            now: NOON,
        })
    }

    fn reject(&mut self, caller: Caller, request: RequestId) -> u64 {
        self.act(&Command::Reject {
            caller,
            request,
            now: NOON,
        })
    }
}

fn signed(account: Account, key: Key) -> Caller {
    pump::signed(account, key)
}

fn through(predecessor: Account, signer: Account, signer_key: Key) -> Caller {
    Caller {
        predecessor,
        signer,
        signer_key,
    }
}

#[test]
fn numbers_and_texts() {
    let numbers: Vec<u64> = Refusal::ALL.iter().map(|r| r.number()).collect();
    assert_eq!(numbers, (1..=21).collect::<Vec<u64>>());
    assert_eq!(Refusal::by_number(21), Some(Refusal::PageRoom));
    assert_eq!(Refusal::by_number(0), None);
    assert_eq!(Refusal::by_number(22), None);
    let of = |n| Refusal::by_number(n).unwrap().as_str();
    assert_eq!(of(18), "key table is full");
    assert_eq!(of(19), "text table is full");
    assert_eq!(of(20), "tables are not a sound ledger");
    assert_eq!(of(21), "page does not hold the answer");
}

#[test]
fn adding_and_revoking() {
    let mut t = Table::cast();
    assert_eq!(t.add(8, A), 1);
    assert_eq!(t.add(7, A), 6);
    assert_eq!(t.revoke(8, D), 1);
    assert_eq!(t.revoke(7, D), 7);
    assert_eq!(t.revoke(7, A), 0);
    assert_eq!(t.revoke(7, A), 7);
}

#[test]
fn authentication() {
    let mut t = Table::cast();
    assert_eq!(t.request(through(9, 1, D), b""), 2);
    assert_eq!(t.request(signed(2, D), b""), 3);
    assert_eq!(t.request(signed(9, B), b""), 4);
    assert_eq!(t.request(signed(9, A), b""), 5);
    assert_eq!(t.approve(through(9, 2, B), 5, b""), 2);
    assert_eq!(t.approve(signed(2, D), 5, b""), 3);
    assert_eq!(t.approve(signed(9, A), 5, b""), 4);
    assert_eq!(t.approve(signed(9, B), 5, b""), 5);
    assert_eq!(t.reject(through(9, 2, B), 5), 2);
    assert_eq!(t.reject(signed(2, D), 5), 3);
    assert_eq!(t.reject(signed(9, A), 5), 4);
    assert_eq!(t.reject(signed(9, B), 5), 5);
}

#[test]
fn requesting() {
    let mut t = Table::cast();
    assert_eq!(t.request(signed(1, A), b""), 8);
    assert_eq!(t.request(signed(1, A), &[1; 2049]), 9);
    for _ in 0..16 {
        assert_eq!(t.request(signed(1, A), b"x"), 0);
    }
    assert_eq!(t.request(signed(1, A), b"x"), 10);
    assert_eq!(t.request(signed(1, A), b""), 8);
    assert_eq!(t.request(signed(1, A), &[1; 2049]), 9);
}

#[test]
fn deciding() {
    let mut t = Table::cast();
    for text in [b"zero", b"one.", b"two.", b"thr."] {
        assert_eq!(t.request(signed(1, A), text), 0);
    }
    assert_eq!(t.approve(signed(2, B), 4, b"x"), 11);
    assert_eq!(t.reject(signed(2, B), u64::MAX), 11);
    assert_eq!(t.approve(signed(2, B), 0, b"x"), 15);
    assert_eq!(t.approve(signed(1, C), 0, b"x"), 15);
    assert_eq!(t.approve(signed(1, C), 0, b"zero"), 16);
    assert_eq!(t.reject(signed(1, C), 0), 16);
    assert_eq!(t.approve(signed(2, B), 0, b"zero"), 0);
    assert_eq!(t.approve(signed(2, B), 0, b"x"), 12);
    assert_eq!(t.reject(signed(1, C), 0), 12);
    assert_eq!(t.reject(signed(2, B), 1), 0);
    assert_eq!(t.approve(signed(1, C), 1, b"x"), 13);
    assert_eq!(t.reject(signed(1, C), 1), 13);
    assert_eq!(t.revoke(7, A), 0);
    assert_eq!(t.approve(signed(1, C), 2, b"x"), 14);
    assert_eq!(t.reject(signed(1, C), 2), 14);
    assert_eq!(t.approve(signed(2, B), 0, b"x"), 12);
}

#[test]
fn full_keys_and_full_registrations() {
    let mut t = Table {
        desk: Desk {
            sized: true,
            store: Some(MemStore::new(7)),
        },
    };
    for n in 0..192 {
        assert_eq!(t.add(7, [n; 32]), 0);
        assert_eq!(t.revoke(7, [n; 32]), 0);
    }
    for n in 0..64 {
        if n == 63 {
            assert_eq!(t.add(8, [0; 32]), 1);
        }
        assert_eq!(t.add(7, [n; 32]), 0);
    }
    assert_eq!(t.add(7, [200; 32]), 17, "256 used and 64 registered");
    assert_eq!(t.add(7, [5; 32]), 6);
    assert_eq!(t.revoke(7, [5; 32]), 0);
    assert_eq!(t.add(7, [200; 32]), 17, "256 used and 63 registered");
}

#[test]
fn full_keys() {
    let mut t = Table::cast();
    for n in 0..61 {
        assert_eq!(t.add(7, [n; 32]), 0);
    }
    assert_eq!(t.add(7, [200; 32]), 18);
    assert_eq!(t.add(8, [200; 32]), 1);
    assert_eq!(t.add(7, A), 6);
    assert_eq!(t.revoke(7, [9; 32]), 0);
    assert_eq!(t.add(7, [200; 32]), 0);
}

#[test]
fn full_requests() {
    let mut t = Table::cast();
    for n in 0..256 {
        assert_eq!(t.request(signed(1, A), &[1; 128]), 0);
        if n < 240 {
            assert_eq!(t.approve(signed(2, B), n, &[1; 128]), 0);
        }
    }
    assert_eq!(t.request(signed(1, A), b"x"), 10, "sixteen wait");
    assert_eq!(t.approve(signed(2, B), 255, &[1; 128]), 0);
    assert_eq!(t.request(signed(1, A), b"x"), 17, "and no text room either");
    for n in 240..255 {
        assert_eq!(t.approve(signed(2, B), n, &[1; 128]), 0);
    }
    assert_eq!(t.desk.store.unwrap().approval_count(), 256);
}

#[test]
fn full_texts() {
    let mut t = Table::cast();
    for _ in 0..15 {
        assert_eq!(t.request(signed(1, A), &[1; 2048]), 0);
    }
    assert_eq!(t.request(signed(1, A), &[1; 2046]), 0);
    assert_eq!(t.request(signed(1, A), b"xyz"), 10, "sixteen wait");
    assert_eq!(t.reject(signed(2, B), 0), 0);
    assert_eq!(
        t.request(signed(1, A), b"xyz"),
        19,
        "a rejection frees no text"
    );
    assert_eq!(t.request(signed(1, A), b"xy"), 0);
    assert_eq!(t.reject(signed(2, B), 1), 0);
    assert_eq!(t.request(signed(1, A), b"x"), 19);
}

#[test]
fn status_and_page() {
    let mut t = Table::cast();
    assert_eq!(t.act(&Command::Status { request: 0 }), 11);
    t.request(signed(1, A), b"x");
    t.approve(signed(2, B), 0, b"x");
    let page = Command::Page {
        from: 0,
        limit: Some(u64::MAX),
    };
    let mut rows = [];
    assert_eq!(t.desk.act(&page, &mut rows).refusal, 21);
    let mut rows = [[0; 8]; 1];
    assert_eq!(t.desk.act(&page, &mut rows).refusal, 0);
    let past = Command::Page {
        from: 1,
        limit: None,
    };
    assert_eq!(t.desk.act(&past, &mut []).refusal, 0);
}

#[test]
fn damaged_comes_before_all_else() {
    let mut desk = Desk::unopened();
    for command in &crate::inputs::one_of_each()[1..] {
        assert_eq!(desk.act(command, &mut []).refusal, 20);
    }
    desk.sized = false;
    assert_eq!(desk.act(&pump::open(), &mut []).refusal, 20);
    desk.sized = true;
    assert_eq!(desk.act(&pump::open(), &mut []).refusal, 0);
}

#[test]
fn a_refusal_changes_nothing() {
    let mut t = Table::cast();
    t.request(signed(1, A), b"x");
    let before = t.desk.store.clone();
    for refusal in [
        t.add(8, D),
        t.add(7, A),
        t.revoke(7, D),
        t.request(signed(1, A), b""),
        t.approve(signed(2, B), 0, b"y"),
        t.reject(signed(1, C), 0),
    ] {
        assert_ne!(refusal, 0);
    }
    assert_eq!(t.desk.store, before);
}
