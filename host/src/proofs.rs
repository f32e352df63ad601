// The proof of a request and the revocations behind it as rows of plain numbers, as the rebuild gives them, for the comparison.

use crate::rebuild::{approval, MemStore};
use crate::records::*;

// What a caller lends for a proof. Numbers: index, request, agent's account, registration and time, the approver's, and where the text lies.
#[derive(Clone, Debug, PartialEq, Eq)]
pub struct ProofRow {
    pub numbers: [u64; 12],
    pub agent_key: Key,
    pub approver_key: Key,
}

// Marks and times of two registrations, the agent's first.
pub type EndsRow = [u64; 6];

const DAMAGED: Outcome = Outcome {
    refusal: Refusal::Damaged as u64,
    number: 0,
};

fn accepted(number: u64) -> Outcome {
    Outcome { refusal: 0, number }
}

// Where the text of a request starts: texts lie in request order without gaps.
fn text_start(store: &MemStore, request: RequestId) -> u64 {
    let before = &store.requests[..request as usize];
    before.iter().map(|r| r.action.len() as u64).sum()
}

// No store stands for tables that hold no sound ledger.
pub fn proof(store: Option<&MemStore>, request: RequestId, lent: &mut ProofRow) -> Outcome {
    let store = match store {
        Some(store) => store,
        None => return DAMAGED,
    };
    let p = match approval(store, request) {
        Some(p) => p,
        None => return accepted(0),
    };
    lent.numbers = [
        p.approval_index,
        p.request_id,
        p.agent_account_id,
        p.agent_registration_id,
        p.requested_at.height,
        p.requested_at.timestamp_ns,
        p.approver_account_id,
        p.approver_registration_id,
        p.approved_at.height,
        p.approved_at.timestamp_ns,
        text_start(store, request),
        p.action.len() as u64,
    ];
    lent.agent_key = p.agent_key;
    lent.approver_key = p.approver_key;
    accepted(1)
}

fn cells(end: Option<BlockTime>) -> [u64; 3] {
    end.map_or([0; 3], |t| [1, t.height, t.timestamp_ns])
}

pub fn revocations(
    store: Option<&MemStore>,
    agent: RegistrationId,
    approver: RegistrationId,
    row: &mut EndsRow,
) -> Outcome {
    let store = match store {
        Some(store) => store,
        None => return DAMAGED,
    };
    row[..3].copy_from_slice(&cells(store.revocation(agent)));
    row[3..].copy_from_slice(&cells(store.revocation(approver)));
    accepted(0)
}
