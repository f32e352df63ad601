// Document 01's worked examples as command files, for the tests, the comparison and the sample: what is sent, and how the last line ends.

use crate::commands::Command;
use crate::records::*;

pub struct Example {
    pub name: &'static str,
    pub commands: Vec<Command>,
    pub says: &'static str,
}

const NOON: BlockTime = BlockTime {
    height: 100,
    timestamp_ns: 200,
};

const A: Key = [b'A'; 32];
const B: Key = [b'B'; 32];
const C: Key = [b'C'; 32];
const MAXRATE: &[u8] = b"maxrate=50";
const MAXRAT: &[u8] = b"maxrat=50";

pub fn open() -> Command {
    Command::Open { owner: 7 }
}

fn add_by(caller: Account, key: Key, account: Account, role: Role) -> Command {
    Command::Add {
        caller,
        key,
        account,
        role,
    }
}

fn add(key: Key, account: Account, role: Role) -> Command {
    add_by(7, key, account, role)
}

fn revoke(key: Key) -> Command {
    Command::Revoke {
        caller: 7,
        key,
        now: NOON,
    }
}

pub fn signed(account: Account, signer_key: Key) -> Caller {
    Caller {
        predecessor: account,
        signer: account,
        signer_key,
    }
}

pub fn request_by(caller: Caller, text: &[u8]) -> Command {
    Command::Request {
        caller,
        text: text.to_vec(),
        now: NOON,
    }
}

fn request(account: Account, key: Key, text: &[u8]) -> Command {
    request_by(signed(account, key), text)
}

fn approve(account: Account, key: Key, request: RequestId, text: &[u8]) -> Command {
    Command::Approve {
        caller: signed(account, key),
        request,
        text: text.to_vec(),
        now: NOON,
    }
}

fn reject(account: Account, key: Key, request: RequestId) -> Command {
    Command::Reject {
        caller: signed(account, key),
        request,
        now: NOON,
    }
}

// An approval and a rejection.
pub fn decisions_by(caller: Caller, request: RequestId) -> [Command; 2] {
    let approval = Command::Approve {
        caller: caller.clone(),
        request,
        text: MAXRATE.to_vec(),
        now: NOON,
    };
    let rejection = Command::Reject {
        caller,
        request,
        now: NOON,
    };
    [approval, rejection]
}

fn status(request: RequestId) -> Command {
    Command::Status { request }
}

fn page(from: u64, limit: u64) -> Command {
    Command::Page {
        from,
        limit: Some(limit),
    }
}

// ---- what came before

// Owner 7; key A Agent of account 1; B Approver of 2; C Approver of 1.
pub fn cast() -> Vec<Command> {
    vec![
        open(),
        add(A, 1, Role::Agent),
        add(B, 2, Role::Approver),
        add(C, 1, Role::Approver),
    ]
}

fn asked() -> Vec<Command> {
    and(cast(), [request(1, A, MAXRATE)])
}

fn and(mut before: Vec<Command>, more: impl IntoIterator<Item = Command>) -> Vec<Command> {
    before.extend(more);
    before
}

fn sixteen(text: &[u8]) -> Vec<Command> {
    and(cast(), vec![request(1, A, text); 16])
}

pub fn logged(length: u64) -> Vec<Command> {
    let each = |n| [request(1, A, MAXRATE), approve(2, B, n, MAXRATE)];
    and(cast(), (0..length).flat_map(each))
}

fn numbered(number: u8) -> Key {
    let mut key = [0x80; 32];
    key[31] = number;
    key
}

// So many keys come and go, and then 64 stay.
fn churned(gone: u8) -> Vec<Command> {
    let passing = |n| [add(numbered(n), 9, Role::Agent), revoke(numbered(n))];
    let staying = (0..64).map(|n| add([n; 32], 9, Role::Agent));
    and(and(vec![open()], (0..gone).flat_map(passing)), staying)
}

// ---- the examples

pub fn examples() -> Vec<Example> {
    [keys(), texts(), decisions(), endings(), pages(), rooms()]
        .into_iter()
        .flatten()
        .collect()
}

fn example(name: &'static str, before: Vec<Command>, last: Command, says: &'static str) -> Example {
    Example {
        name,
        commands: and(before, [last]),
        says,
    }
}

fn keys() -> Vec<Example> {
    vec![
        example(
            "caller 8 adds",
            vec![open()],
            add_by(8, A, 1, Role::Agent),
            "refused 1 only the owner can manage keys",
        ),
        example(
            "A added twice",
            cast(),
            add(A, 1, Role::Agent),
            "refused 6 key is already registered",
        ),
        example(
            "an unknown key revoked",
            cast(),
            revoke([b'D'; 32]),
            "refused 7 key to revoke was not found",
        ),
    ]
}

fn texts() -> Vec<Example> {
    let pending = "refused 10 agent key has too many pending requests";
    vec![
        example(
            "empty text",
            cast(),
            request(1, A, b""),
            "refused 8 action is empty",
        ),
        example("2048 bytes", cast(), request(1, A, &[1; 2048]), "ok 0"),
        example(
            "2049 bytes",
            cast(),
            request(1, A, &[1; 2049]),
            "refused 9 action exceeds 2048 bytes",
        ),
        example(
            "sixteen pending, one more",
            sixteen(MAXRATE),
            request(1, A, MAXRATE),
            pending,
        ),
        example(
            "sixteen pending, an empty text",
            sixteen(MAXRATE),
            request(1, A, b""),
            "refused 8 action is empty",
        ),
    ]
}

fn decisions() -> Vec<Example> {
    let mismatch = "refused 15 action does not match the request";
    let own = "refused 16 approver and agent must be different accounts";
    let tried = |name, last, says| example(name, asked(), last, says);
    vec![
        tried(
            "B approves another text",
            approve(2, B, 0, MAXRAT),
            mismatch,
        ),
        tried("B approves no text", approve(2, B, 0, b""), mismatch),
        tried(
            "B approves an over-long text",
            approve(2, B, 0, &[1; 2049]),
            mismatch,
        ),
        tried("B approves", approve(2, B, 0, MAXRATE), "ok 0"),
        tried("C approves the right text", approve(1, C, 0, MAXRATE), own),
        tried(
            "C approves a wrong text",
            approve(1, C, 0, MAXRAT),
            mismatch,
        ),
        tried("C rejects", reject(1, C, 0), own),
    ]
}

fn endings() -> Vec<Example> {
    let revoked = || and(asked(), [revoke(A)]);
    let again = || and(revoked(), [add(A, 1, Role::Agent)]);
    vec![
        example("A revoked", revoked(), status(0), "ok Void"),
        example("A added again", revoked(), add(A, 1, Role::Agent), "ok 3"),
        example("A added again, status", again(), status(0), "ok Void"),
        example(
            "A added again, approving",
            again(),
            approve(2, B, 0, MAXRATE),
            "refused 14 request is void: its agent key was revoked",
        ),
        example(
            "approved, then rejected",
            and(asked(), [approve(2, B, 0, MAXRATE)]),
            reject(2, B, 0),
            "refused 12 request is already approved",
        ),
        example(
            "rejected, then approved with a wrong text",
            and(asked(), [reject(2, B, 0)]),
            approve(2, B, 0, MAXRAT),
            "refused 13 request is already rejected",
        ),
    ]
}

fn pages() -> Vec<Example> {
    let hundred = "ok 100 0 1 2 3 4 5 6 7 8 9 10 11 12 13 14 15 16 17 18 19 20 21 22 23 24 25 26 \
        27 28 29 30 31 32 33 34 35 36 37 38 39 40 41 42 43 44 45 46 47 48 49 50 51 52 53 54 55 56 \
        57 58 59 60 61 62 63 64 65 66 67 68 69 70 71 72 73 74 75 76 77 78 79 80 81 82 83 84 85 86 \
        87 88 89 90 91 92 93 94 95 96 97 98 99";
    vec![
        example("page from the end", logged(1), page(u64::MAX, 5), "ok 0"),
        example("page of a long log", logged(120), page(0, 250), hundred),
    ]
}

fn rooms() -> Vec<Example> {
    let next = add([0xFE; 32], 9, Role::Agent);
    let other = add([0xFD; 32], 5, Role::Agent);
    let full = "refused 18 key table is full";
    let last = "refused 19 text table is full";
    vec![
        example("64 keys of 100 ever", churned(36), next.clone(), full),
        example(
            "64 keys, one revoked",
            and(churned(36), [revoke([5; 32])]),
            next.clone(),
            "ok 100",
        ),
        example(
            "64 keys, all registrations used",
            churned(192),
            next,
            "refused 17 log is full",
        ),
        example(
            "sixteen long texts, then one byte",
            and(sixteen(&[1; 2048]), [other]),
            request(5, [0xFD; 32], &[1]),
            last,
        ),
    ]
}
