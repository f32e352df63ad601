// How a ledger of the rebuild is laid into the three lent tables: the regions of the book and of the key table, and each row's columns.

use crate::rebuild::*;
use crate::records::*;

pub type Cells = [u64; 6];

pub const BOOK_ROWS: usize = 1089;
pub const KEY_ROWS: usize = 576;
pub const TEXT_BYTES: usize = 32768;

// The first row of each region of the book; the head is row 0.
pub const HOLDERS: usize = 1;
pub const ASKED: usize = 65;
pub const DECIDED: usize = 321;
pub const REVOKED: usize = 577;
pub const LOG: usize = 833;

// The first row of each region of the key table; registered keys are at its front.
pub const AGENTS: usize = 64;
pub const APPROVERS: usize = 320;

#[derive(Clone, Debug, PartialEq, Eq)]
pub struct Tables {
    pub book: Vec<Cells>,
    pub keys: Vec<Key>,
    pub texts: Vec<u8>,
}

impl Tables {
    pub fn zero() -> Tables {
        Tables {
            book: vec![[0; 6]; BOOK_ROWS],
            keys: vec![[0; 32]; KEY_ROWS],
            texts: vec![0; TEXT_BYTES],
        }
    }

    pub fn sized(&self) -> bool {
        self.book.len() == BOOK_ROWS
            && self.keys.len() == KEY_ROWS
            && self.texts.len() == TEXT_BYTES
    }

    // The contents of the other tables, without new memory where the lengths agree.
    pub fn copy_from(&mut self, other: &Tables) {
        self.book.clone_from(&other.book);
        self.keys.clone_from(&other.keys);
        self.texts.clone_from(&other.texts);
    }
}

pub fn encode(store: &MemStore) -> Tables {
    let mut t = Tables::zero();
    t.book[0] = head_row(store);
    for (i, (key, principal)) in store.principals.iter().enumerate() {
        t.book[HOLDERS + i] = holder_row(principal);
        t.keys[i] = *key;
    }
    put_requests(&mut t, &store.requests);
    for (registration, at) in &store.revocations {
        t.book[REVOKED + *registration as usize] = [1, at.height, at.timestamp_ns, 0, 0, 0];
    }
    for (j, request) in store.approval_log.iter().enumerate() {
        t.book[LOG + j] = [*request, 0, 0, 0, 0, 0];
    }
    t
}

fn head_row(store: &MemStore) -> Cells {
    [
        store.owner,
        store.principals.len() as u64,
        store.registration_count,
        store.request_count(),
        store.approval_count(),
        store.text_used() as u64,
    ]
}

fn holder_row(p: &Principal) -> Cells {
    [
        p.account_id,
        p.role.number(),
        p.registration_id,
        p.active_from,
        u64::from(p.pending),
        0,
    ]
}

// Texts lie one after the other in request order.
fn put_requests(t: &mut Tables, requests: &[ActionRequest]) {
    let mut start = 0;
    for (n, r) in requests.iter().enumerate() {
        let end = start + r.action.len();
        t.book[ASKED + n] = asked_row(r, start);
        t.book[DECIDED + n] = decided_row(r);
        t.keys[AGENTS + n] = r.agent_key;
        t.keys[APPROVERS + n] = approver_key(r);
        t.texts[start..end].copy_from_slice(&r.action);
        start = end;
    }
}

fn asked_row(r: &ActionRequest, start: usize) -> Cells {
    [
        r.agent_account_id,
        r.agent_registration_id,
        start as u64,
        r.action.len() as u64,
        r.requested_at.height,
        r.requested_at.timestamp_ns,
    ]
}

fn decided_row(r: &ActionRequest) -> Cells {
    match (&r.approval, &r.rejection) {
        (Some(a), _) => [
            1,
            a.approval_index,
            a.approver_account_id,
            a.approver_registration_id,
            a.approved_at.height,
            a.approved_at.timestamp_ns,
        ],
        (None, Some(d)) => [
            2,
            0,
            d.approver_account_id,
            d.approver_registration_id,
            d.rejected_at.height,
            d.rejected_at.timestamp_ns,
        ],
        (None, None) => [0; 6],
    }
}

fn approver_key(r: &ActionRequest) -> Key {
    match (&r.approval, &r.rejection) {
        (Some(a), _) => a.approver_key,
        (None, Some(d)) => d.approver_key,
        (None, None) => [0; 32],
    }
}
