// Ledgers and their tables changed at random, for single calls on tables that may or may not be sound.

use crate::commands::Command;
use crate::layout::*;
use crate::maker::{Maker, Rng};
use crate::rebuild::*;
use crate::records::*;

// One call on lent tables; a page is lent `room` rows.
#[derive(Clone, Debug, PartialEq, Eq)]
pub struct Call {
    pub tables: Tables,
    pub command: Command,
    pub room: usize,
}

pub fn call(seed: u64, case: u64) -> Call {
    let mut m = Maker::new(seed, case);
    match m.rng.below(25) {
        0 => m.full(),
        1 | 2 => m.pending_full(),
        _ => m.cast(),
    }
    m.days(0, 60);
    let command = match m.rng.below(20) {
        0 => Command::Open { owner: 9 },
        1..=4 => m.page(),
        _ => m.any(),
    };
    let store = m.store().clone();
    Call {
        tables: damaged(&mut m.rng, store),
        command,
        room: m.rng.pick(&[0, 1, 2, 3, 99, 100, 101]),
    }
}

fn damaged(rng: &mut Rng, mut store: MemStore) -> Tables {
    match rng.below(20) {
        0..=2 => return encode(&store),
        3..=9 => change_ledger(rng, &mut store),
        _ => (),
    }
    let mut t = encode(&store);
    match rng.below(20) {
        0..=1 => change_length(rng, &mut t),
        2..=9 => change_cell(rng, &mut t),
        10..=11 => change_key(rng, &mut t),
        12 => change_text(rng, &mut t),
        13 => swap_rows(rng, &mut t),
        _ => (),
    }
    t
}

// ---- tables

// A region's first row, its length, and how much of it is used.
type Region = (usize, usize, usize);

fn book_region(rng: &mut Rng, t: &Tables) -> Region {
    let count = |c: usize| t.book[0][c] as usize;
    rng.pick(&[
        (0, 1, 1),
        (HOLDERS, 64, count(1)),
        (HOLDERS, 64, count(1)),
        (ASKED, 256, count(3)),
        (DECIDED, 256, count(3)),
        (REVOKED, 256, count(2)),
        (LOG, 256, count(4)),
    ])
}

fn key_region(rng: &mut Rng, t: &Tables) -> Region {
    let count = |c: usize| t.book[0][c] as usize;
    rng.pick(&[
        (0, 64, count(1)),
        (AGENTS, 256, count(3)),
        (APPROVERS, 256, count(3)),
    ])
}

// A used row or the first unused one; now and then the last, or any.
fn row_in(rng: &mut Rng, (start, length, used): Region) -> usize {
    match rng.below(20) {
        0 => start + rng.below(length),
        1 => start + length - 1,
        _ => start + rng.below(length.min(used + 1)),
    }
}

fn change_length(rng: &mut Rng, t: &mut Tables) {
    match rng.below(6) {
        0 => drop(t.book.pop()),
        1 => t.book.push([0; 6]),
        2 => drop(t.keys.pop()),
        3 => t.keys.push([0; 32]),
        4 => drop(t.texts.pop()),
        _ => t.texts.push(0),
    }
}

fn change_cell(rng: &mut Rng, t: &mut Tables) {
    let region = book_region(rng, t);
    let (row, column) = (row_in(rng, region), rng.below(6));
    let other = t.book[row_in(rng, region)][column];
    let beside = t.book[row][rng.below(6)];
    let any = rng.draw();
    let old = t.book[row][column];
    let (up, down) = (old.wrapping_add(1), old.wrapping_sub(1));
    let far = old ^ 1 << rng.below(64);
    let near = [0, 1, 2, up, up, down, down, other, beside, any, far];
    let rooms = [up, down, 64, 65, 256, 257, 32768, 32769, any, far];
    t.book[row][column] = match row {
        0 => rng.pick(&rooms),
        _ => rng.pick(&near),
    };
}

fn change_key(rng: &mut Rng, t: &mut Tables) {
    let region = key_region(rng, t);
    let row = row_in(rng, region);
    let another_region = key_region(rng, t);
    let another = t.keys[row_in(rng, another_region)];
    match rng.below(3) {
        0 => t.keys[row] = another,
        1 => t.keys[row] = [0; 32],
        _ => t.keys[row][rng.below(32)] ^= 1 << rng.below(8),
    }
}

fn change_text(rng: &mut Rng, t: &mut Tables) {
    let used = t.book[0][5] as usize;
    let last = t.texts.len() - 1;
    let inside = rng.below(used + 1);
    let at = rng.pick(&[inside, used, last]).min(last);
    t.texts[at] ^= 1 << rng.below(8);
}

fn swap_rows(rng: &mut Rng, t: &mut Tables) {
    let region = book_region(rng, t);
    let (a, b) = (row_in(rng, region), row_in(rng, region));
    t.book.swap(a, b);
    if region.0 == HOLDERS && rng.chance(70) {
        t.keys.swap(a - HOLDERS, b - HOLDERS);
    }
}

// ---- ledgers

// Changes one thing in a ledger; laid into tables it has the right shape, and most often breaks just one clause.
fn change_ledger(rng: &mut Rng, store: &mut MemStore) {
    match rng.below(11) {
        0..=3 => change_principal(rng, store),
        4..=6 => change_request(rng, store),
        7 => change_log(rng, store),
        8 => change_revocations(rng, store),
        9 => change_counts(rng, store),
        _ => one_more_waits(store),
    }
}

// A waiting request of the busiest key once more, and counted: a sound ledger still, if fewer than sixteen waited under it.
fn one_more_waits(store: &mut MemStore) {
    let live = |r: &&ActionRequest| status_of(store, r) == RequestStatus::Pending;
    let pending = |r: &&ActionRequest| store.principal(&r.agent_key).map(|p| p.pending);
    let busiest = store.requests.iter().filter(live).max_by_key(pending);
    let mut more = match busiest {
        Some(r) if store.requests.len() < 256 => r.clone(),
        _ => return,
    };
    if more.action.len() > TEXT_ROOM - store.text_used() {
        return;
    }
    more.id = store.request_count();
    let holders = store.principals.iter_mut();
    for (_, p) in holders.filter(|(k, _)| *k == more.agent_key) {
        p.pending += 1;
    }
    store.requests.push(more);
}

fn near(rng: &mut Rng, old: u64) -> u64 {
    let small = rng.below(12) as u64;
    rng.pick(&[old.saturating_sub(1), old + 1, small, small])
}

fn change_principal(rng: &mut Rng, store: &mut MemStore) {
    if store.principals.is_empty() {
        return;
    }
    let other_key = rng.pick(&store.principals).0;
    let asked_key = store.requests.last().map_or(other_key, |r| r.agent_key);
    let at = rng.below(store.principals.len());
    let (key, p) = &mut store.principals[at];
    match rng.below(7) {
        0 => p.account_id = near(rng, p.account_id % 8),
        1 if p.role == Role::Agent => p.role = Role::Approver,
        1 => p.role = Role::Agent,
        2 => p.registration_id = near(rng, p.registration_id),
        3 | 4 => p.active_from = near(rng, p.active_from),
        5 => p.pending = near(rng, u64::from(p.pending)) as u32,
        _ => *key = rng.pick(&[other_key, asked_key, [0x55; 32]]),
    }
}

fn change_request(rng: &mut Rng, store: &mut MemStore) {
    if store.requests.is_empty() {
        return;
    }
    let room = TEXT_ROOM - store.text_used();
    let key = store.principals.first().map_or([0; 32], |(k, _)| *k);
    let at = rng.below(store.requests.len());
    let r = &mut store.requests[at];
    match rng.below(9) {
        0 => r.agent_account_id = near(rng, r.agent_account_id % 8),
        1 | 2 => r.agent_registration_id = near(rng, r.agent_registration_id),
        3 => r.agent_key = rng.pick(&[key, [0x55; 32]]),
        4 if room > 0 => r.action.push(1),
        5 => drop(r.action.pop()),
        6 => r.rejection = None,
        _ => change_decision(rng, r),
    }
}

fn change_decision(rng: &mut Rng, r: &mut ActionRequest) {
    let agent = r.agent_account_id;
    match (&mut r.approval, &mut r.rejection) {
        (Some(a), _) => match rng.below(4) {
            0 => a.approver_account_id = agent,
            1 => a.approver_registration_id = near(rng, a.approver_registration_id),
            2 => a.approval_index = near(rng, a.approval_index),
            _ => r.approval = None,
        },
        (None, Some(d)) => match rng.below(2) {
            0 => d.approver_account_id = agent,
            _ => d.approver_registration_id = near(rng, d.approver_registration_id),
        },
        (None, None) => {
            r.rejection = Some(Rejection {
                approver_account_id: agent ^ 1,
                approver_key: [3; 32],
                approver_registration_id: 0,
                rejected_at: r.requested_at,
            })
        }
    }
}

fn change_log(rng: &mut Rng, store: &mut MemStore) {
    let length = store.approval_log.len();
    match rng.below(4) {
        0 if length > 1 => store.approval_log.swap(0, length - 1),
        1 => drop(store.approval_log.pop()),
        2 if length < 256 => store.approval_log.push(rng.below(4) as u64),
        _ if length > 0 => {
            let at = rng.below(length);
            store.approval_log[at] = near(rng, store.approval_log[at]);
        }
        _ => (),
    }
}

fn change_revocations(rng: &mut Rng, store: &mut MemStore) {
    let at = BlockTime {
        height: 0,
        timestamp_ns: 0,
    };
    let registration = rng.below(store.registration_count as usize + 1) as u64;
    match rng.below(3) {
        0 => drop(store.revocations.pop()),
        1 => drop(store.principals.pop()),
        _ => store.revocations.push((registration.min(255), at)),
    }
}

fn change_counts(rng: &mut Rng, store: &mut MemStore) {
    match rng.below(4) {
        0 => store.registration_count += 1,
        1 => store.registration_count = store.registration_count.saturating_sub(1),
        2 => store.owner = rng.draw(),
        _ => drop(store.requests.pop()),
    }
}
