// Whether three tables hold a sound ledger, written from document 01's clauses for the comparison alone, and the ledger that sound tables hold.

use crate::layout::*;
use crate::rebuild::*;
use crate::records::*;

// Document 01's clauses, in its order.
#[derive(Clone, Copy, Debug, PartialEq, Eq)]
pub enum Clause {
    Lengths,
    Counts,
    UnusedRoom,
    AbsentFields,
    Roles,
    Marks,
    Texts,
    DistinctKeys,
    Registrations,
    ActiveFrom,
    LiveExactly,
    OwnKey,
    DecidedByOther,
    KnownNumbers,
    Log,
    PendingCounts,
}

type Test = fn(&View) -> bool;

const TESTS: [(Clause, Test); 13] = [
    (Clause::AbsentFields, absent_fields_are_zero),
    (Clause::Roles, roles_are_named),
    (Clause::Marks, marks_are_named),
    (Clause::Texts, texts_lie_in_order),
    (Clause::DistinctKeys, keys_are_distinct),
    (Clause::Registrations, registrations_are_whole),
    (Clause::ActiveFrom, active_from_is_within),
    (Clause::LiveExactly, live_exactly_under_its_registration),
    (Clause::OwnKey, in_force_means_own_key),
    (Clause::DecidedByOther, decided_by_another_account),
    (Clause::KnownNumbers, numbers_lie_below_the_count),
    (Clause::Log, log_names_the_approved),
    (Clause::PendingCounts, pending_counts_are_exact),
];

// The first clause that the tables break.
pub fn broken(t: &Tables) -> Option<Clause> {
    if !t.sized() {
        return Some(Clause::Lengths);
    }
    if !counts_lie_within(&t.book[0]) {
        return Some(Clause::Counts);
    }
    if !unused_room_is_zero(t) {
        return Some(Clause::UnusedRoom);
    }
    let v = View::of(t);
    let first = TESTS.iter().find(|(_, holds)| !holds(&v));
    first.map(|(clause, _)| *clause)
}

pub fn is_sound(t: &Tables) -> bool {
    broken(t).is_none()
}

// The ledger in sound tables. Revocations come in the order of registrations, since tables keep no other.
pub fn decode(t: &Tables) -> Result<MemStore, Clause> {
    match broken(t) {
        Some(clause) => Err(clause),
        None => Ok(View::of(t).ledger()),
    }
}

// ---- what is used of the tables

// The used rows of each region. It is taken only where lengths and counts are right.
struct View<'a> {
    head: &'a Cells,
    holders: &'a [Cells],
    held: &'a [Key],
    asked: &'a [Cells],
    agents: &'a [Key],
    decided: &'a [Cells],
    approvers: &'a [Key],
    revoked: &'a [Cells],
    log: &'a [Cells],
    texts: &'a [u8],
}

fn used<T>(table: &[T], start: usize, count: u64) -> &[T] {
    &table[start..start + count as usize]
}

impl<'a> View<'a> {
    fn of(t: &'a Tables) -> View<'a> {
        let head = &t.book[0];
        let [_, keys, registrations, requests, log, text] = *head;
        View {
            head,
            holders: used(&t.book, HOLDERS, keys),
            held: used(&t.keys, 0, keys),
            asked: used(&t.book, ASKED, requests),
            agents: used(&t.keys, AGENTS, requests),
            decided: used(&t.book, DECIDED, requests),
            approvers: used(&t.keys, APPROVERS, requests),
            revoked: used(&t.book, REVOKED, registrations),
            log: used(&t.book, LOG, log),
            texts: used(&t.texts, 0, text),
        }
    }
}

const AGENT: u64 = 0;
const UNDECIDED: u64 = 0;
const APPROVED: u64 = 1;
const REJECTED: u64 = 2;

// ---- the clauses

fn counts_lie_within(head: &Cells) -> bool {
    let [_, keys, registrations, requests, log, text] = *head;
    keys <= KEY_ROOM as u64
        && registrations <= REGISTRATION_ROOM
        && requests <= REQUEST_ROOM
        && log <= LOG_ROOM
        && text <= TEXT_ROOM as u64
}

fn unused<T>(table: &[T], start: usize, count: u64, end: usize) -> &[T] {
    &table[start + count as usize..end]
}

fn unused_room_is_zero(t: &Tables) -> bool {
    let [_, keys, registrations, requests, log, text] = t.book[0];
    let rows = [
        unused(&t.book, HOLDERS, keys, ASKED),
        unused(&t.book, ASKED, requests, DECIDED),
        unused(&t.book, DECIDED, requests, REVOKED),
        unused(&t.book, REVOKED, registrations, LOG),
        unused(&t.book, LOG, log, BOOK_ROWS),
    ];
    let key_rows = [
        unused(&t.keys, 0, keys, AGENTS),
        unused(&t.keys, AGENTS, requests, APPROVERS),
        unused(&t.keys, APPROVERS, requests, KEY_ROWS),
    ];
    rows.iter().all(|part| part.iter().all(|r| *r == [0; 6]))
        && key_rows
            .iter()
            .all(|part| part.iter().all(|k| *k == [0; 32]))
        && t.texts[text as usize..].iter().all(|b| *b == 0)
}

// A spare column, the time of a revocation that is not, a decision that is not and its key, a rejection's index.
fn absent_fields_are_zero(v: &View) -> bool {
    v.holders.iter().all(|h| h[5] == 0)
        && v.log.iter().all(|s| s[1..] == [0; 5])
        && v.revoked
            .iter()
            .all(|r| r[3..] == [0; 3] && (r[0] != 0 || r[1..3] == [0; 2]))
        && v.decided
            .iter()
            .zip(v.approvers)
            .all(|(d, key)| match d[0] {
                UNDECIDED => *d == [0; 6] && *key == [0; 32],
                REJECTED => d[1] == 0,
                _ => true,
            })
}

fn roles_are_named(v: &View) -> bool {
    v.holders.iter().all(|h| Role::by_number(h[1]).is_some())
}

fn marks_are_named(v: &View) -> bool {
    v.decided.iter().all(|d| d[0] <= REJECTED) && v.revoked.iter().all(|r| r[0] <= 1)
}

fn texts_lie_in_order(v: &View) -> bool {
    let mut end = 0;
    for asked in v.asked {
        let (start, length) = (asked[2], asked[3]);
        if start != end || length == 0 || length > MAX_ACTION_LEN as u64 {
            return false;
        }
        end += length;
    }
    end == v.head[5]
}

fn keys_are_distinct(v: &View) -> bool {
    let later = |i: usize| &v.held[i + 1..];
    (0..v.held.len()).all(|i| !later(i).contains(&v.held[i]))
}

// Each number below the count has one key or one revocation, and no key has another number.
fn registrations_are_whole(v: &View) -> bool {
    let mut times = [0; REGISTRATION_ROOM as usize];
    for (g, revoked) in v.revoked.iter().enumerate() {
        times[g] = revoked[0];
    }
    for holder in v.holders {
        if holder[2] >= v.head[2] {
            return false;
        }
        times[holder[2] as usize] += 1;
    }
    times[..v.revoked.len()].iter().all(|n| *n == 1)
}

fn active_from_is_within(v: &View) -> bool {
    v.holders.iter().all(|h| h[3] <= v.head[3])
}

// Whether a test holds of every request and every registered key, given as number and row.
fn for_each_pair(v: &View, holds: impl Fn(usize, usize) -> bool) -> bool {
    (0..v.asked.len()).all(|n| (0..v.held.len()).all(|i| holds(n, i)))
}

// A request with a registered key has reached that key's active_from exactly if it has its registration.
fn live_exactly_under_its_registration(v: &View) -> bool {
    for_each_pair(v, |n, i| {
        if v.agents[n] != v.held[i] {
            return true;
        }
        let (asked, holder) = (&v.asked[n], &v.holders[i]);
        let since = n as u64 >= holder[3];
        let own = asked[1] == holder[2];
        since == own && (!own || (holder[1] == AGENT && holder[0] == asked[0]))
    })
}

fn in_force_means_own_key(v: &View) -> bool {
    for_each_pair(v, |n, i| {
        v.asked[n][1] != v.holders[i][2] || v.agents[n] == v.held[i]
    })
}

// One row a request holds at most one decision; who made it is another account than who asked.
fn decided_by_another_account(v: &View) -> bool {
    let mut pairs = v.decided.iter().zip(v.asked);
    pairs.all(|(d, asked)| d[0] == UNDECIDED || d[2] != asked[0])
}

fn numbers_lie_below_the_count(v: &View) -> bool {
    let count = v.head[2];
    v.asked.iter().all(|a| a[1] < count)
        && v.decided.iter().all(|d| d[0] == UNDECIDED || d[3] < count)
}

fn log_names_the_approved(v: &View) -> bool {
    let named = |(j, slot): (usize, &Cells)| match v.decided.get(slot[0] as usize) {
        Some(d) => d[0] == APPROVED && d[1] == j as u64,
        None => false,
    };
    let approved = v.decided.iter().filter(|d| d[0] == APPROVED).count();
    v.log.iter().enumerate().all(named) && approved == v.log.len()
}

// A request is live under a key that is registered for its account, as an Agent's, since before it.
fn live_under(v: &View, n: usize, i: usize) -> bool {
    let holder = &v.holders[i];
    v.agents[n] == v.held[i]
        && holder[1] == AGENT
        && holder[0] == v.asked[n][0]
        && holder[3] <= n as u64
}

fn pending_counts_are_exact(v: &View) -> bool {
    v.holders.iter().enumerate().all(|(i, holder)| {
        let waits = |n: &usize| v.decided[*n][0] == UNDECIDED && live_under(v, *n, i);
        let waiting = (0..v.asked.len()).filter(waits).count() as u64;
        let most = if holder[1] == AGENT {
            u64::from(MAX_PENDING_PER_KEY)
        } else {
            0
        };
        holder[4] == waiting && waiting <= most
    })
}

// ---- the ledger in sound tables

fn time(height: u64, timestamp_ns: u64) -> BlockTime {
    BlockTime {
        height,
        timestamp_ns,
    }
}

impl View<'_> {
    fn ledger(&self) -> MemStore {
        MemStore {
            owner: self.head[0],
            principals: (0..self.held.len()).map(|i| self.principal(i)).collect(),
            requests: (0..self.asked.len()).map(|n| self.request(n)).collect(),
            approval_log: self.log.iter().map(|slot| slot[0]).collect(),
            registration_count: self.head[2],
            revocations: self.revocations(),
        }
    }

    fn principal(&self, i: usize) -> (Key, Principal) {
        let [account_id, role, registration_id, active_from, pending, _] = self.holders[i];
        let principal = Principal {
            account_id,
            role: Role::by_number(role).expect("a named role"),
            registration_id,
            active_from,
            pending: pending as u32,
        };
        (self.held[i], principal)
    }

    fn request(&self, n: usize) -> ActionRequest {
        let [agent_account_id, agent_registration_id, start, length, height, timestamp] =
            self.asked[n];
        ActionRequest {
            id: n as u64,
            agent_account_id,
            agent_key: self.agents[n],
            agent_registration_id,
            action: used(self.texts, start as usize, length).to_vec(),
            requested_at: time(height, timestamp),
            approval: self.approval(n),
            rejection: self.rejection(n),
        }
    }

    fn approval(&self, n: usize) -> Option<Approval> {
        let [mark, approval_index, account, registration, height, timestamp] = self.decided[n];
        if mark != APPROVED {
            return None;
        }
        Some(Approval {
            approval_index,
            approver_account_id: account,
            approver_key: self.approvers[n],
            approver_registration_id: registration,
            approved_at: time(height, timestamp),
        })
    }

    fn rejection(&self, n: usize) -> Option<Rejection> {
        let [mark, _, account, registration, height, timestamp] = self.decided[n];
        if mark != REJECTED {
            return None;
        }
        Some(Rejection {
            approver_account_id: account,
            approver_key: self.approvers[n],
            approver_registration_id: registration,
            rejected_at: time(height, timestamp),
        })
    }

    fn revocations(&self) -> Vec<(RegistrationId, BlockTime)> {
        let rows = self.revoked.iter().enumerate();
        rows.filter(|(_, r)| r[0] == 1)
            .map(|(g, r)| (g as u64, time(r[1], r[2])))
            .collect()
    }
}
