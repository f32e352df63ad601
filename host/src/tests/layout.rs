// How a ledger lies in the tables, row by row, and that it is read back as it was.

use crate::commands::{file_of, Command};
use crate::compare::same_ledger;
use crate::inputs::one_of_each;
use crate::layout::*;
use crate::maker::{drawn, Maker};
use crate::replay::{replay, Desk};
use crate::sound::{decode, is_sound};

#[test]
fn regions_follow_one_another() {
    assert_eq!(HOLDERS, 1);
    assert_eq!(ASKED, HOLDERS + 64);
    assert_eq!(DECIDED, ASKED + 256);
    assert_eq!(REVOKED, DECIDED + 256);
    assert_eq!(LOG, REVOKED + 256);
    assert_eq!(BOOK_ROWS, LOG + 256);
    assert_eq!(APPROVERS, AGENTS + 256);
    assert_eq!(KEY_ROWS, APPROVERS + 256);
}

#[test]
fn rows_of_a_small_ledger() {
    let mut desk = Desk::unopened();
    replay(&file_of(&one_of_each()), &mut desk);
    let t = encode(&desk.store.unwrap());
    assert_eq!(t.book[0], [7, 1, 2, 2, 1, 11]);
    assert_eq!(t.book[HOLDERS], [2, 1, 1, 0, 0, 0]);
    assert_eq!(t.book[HOLDERS + 1], [0; 6]);
    assert_eq!(t.book[ASKED], [1, 0, 0, 10, 12, 1]);
    assert_eq!(t.book[ASKED + 1], [1, 0, 10, 1, 12, 1]);
    assert_eq!(t.book[DECIDED], [1, 0, 2, 1, 12, 1]);
    assert_eq!(t.book[DECIDED + 1], [2, 0, 2, 1, 12, 1]);
    assert_eq!(t.book[REVOKED], [1, 12, 1, 0, 0, 0]);
    assert_eq!(t.book[REVOKED + 1], [0; 6]);
    assert_eq!(t.book[LOG], [0; 6]);
    assert_eq!(t.keys[0], [b'B'; 32]);
    assert_eq!(t.keys[1], [0; 32]);
    assert_eq!(t.keys[AGENTS + 1], [b'A'; 32]);
    assert_eq!(t.keys[APPROVERS + 1], [b'B'; 32]);
    assert_eq!(&t.texts[..12], b"maxrate=50x\0");
}

#[test]
fn opening_is_sound_for_any_owner() {
    for owner in [0, 7, u64::MAX] {
        let mut desk = Desk::unopened();
        desk.act(&Command::Open { owner }, &mut []);
        let t = encode(&desk.store.unwrap());
        assert_eq!(t.book[0], [owner, 0, 0, 0, 0, 0]);
        assert!(is_sound(&t));
    }
}

#[test]
fn ledgers_are_read_back() {
    for case in 0..60 {
        let mut m = Maker::new(5, case);
        m.cast();
        m.days(10, 60);
        let shown = decode(&encode(m.store())).unwrap();
        assert_eq!(same_ledger(&shown, m.store()), Ok(()));
        assert_eq!(encode(&shown), encode(m.store()));
    }
}

#[test]
fn full_ledgers_are_sound() {
    for halves in 0..3 {
        let store = crate::bench::filled(halves, drawn).store.unwrap();
        let t = encode(&store);
        let half = halves as u64;
        assert_eq!(
            t.book[0],
            [
                7,
                32 * half,
                128 * half,
                128 * half,
                128 * half,
                16384 * half
            ]
        );
        assert!(is_sound(&t));
    }
}
