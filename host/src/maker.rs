// Single commands made by chance, each in view of the ledger that the ones before have left, for the generators of files and calls.

use crate::commands::{file_of, Command};
use crate::reader::INPUT_ROOM;
use crate::rebuild::*;
use crate::records::*;
use crate::replay::{page_rows, Desk};

// A generator of numbers (splitmix64), one stream for each seed and case.
#[derive(Clone, Debug)]
pub struct Rng {
    state: u64,
}

const STEP: u64 = 0x9E37_79B9_7F4A_7C15;

impl Rng {
    pub fn new(seed: u64, case: u64) -> Rng {
        let mut of_seed = Rng { state: seed };
        let state = of_seed.draw() ^ case.wrapping_mul(STEP);
        Rng { state }
    }

    pub fn draw(&mut self) -> u64 {
        self.state = self.state.wrapping_add(STEP);
        let mut z = self.state;
        z = (z ^ (z >> 30)).wrapping_mul(0xBF58_476D_1CE4_E5B9);
        z = (z ^ (z >> 27)).wrapping_mul(0x94D0_49BB_1331_11EB);
        z ^ (z >> 31)
    }

    pub fn below(&mut self, n: usize) -> usize {
        (self.draw() % n as u64) as usize
    }

    pub fn chance(&mut self, percent: usize) -> bool {
        self.below(100) < percent
    }

    pub fn pick<T: Clone>(&mut self, from: &[T]) -> T {
        from[self.below(from.len())].clone()
    }
}

pub const OWNER: Account = 7;

// A key as drawn from a good source: the same for the same number.
pub fn drawn(number: usize) -> Key {
    let mut rng = Rng::new(0, number as u64);
    let words: Vec<[u8; 8]> = (0..4).map(|_| rng.draw().to_be_bytes()).collect();
    words.concat().try_into().expect("32 bytes")
}

// A key that bears a number; number 0 is the key of zeros, which is as good as any.
pub fn numbered(number: usize) -> Key {
    let mut key = [0; 32];
    key[24..].copy_from_slice(&(number as u64).to_be_bytes());
    key
}

// Makes commands one after the other, each in view of the ledger that the ones before have left.
pub struct Maker {
    pub rng: Rng,
    desk: Desk,
    rows: Vec<Row>,
    commands: Vec<Command>,
    length: usize,
}

impl Maker {
    pub fn new(seed: u64, case: u64) -> Maker {
        let mut maker = Maker {
            rng: Rng::new(seed, case),
            desk: Desk::unopened(),
            rows: page_rows(),
            commands: Vec::new(),
            length: 0,
        };
        let owner = maker.rng.pick(&[OWNER, OWNER, OWNER, 0, u64::MAX]);
        maker.push(Command::Open { owner });
        maker
    }

    // A command that would make the file too long is left out.
    pub fn push(&mut self, command: Command) {
        let length = self.length + command.bytes().len();
        if length > INPUT_ROOM {
            return;
        }
        self.desk.act(&command, &mut self.rows);
        self.length = length;
        self.commands.push(command);
    }

    pub fn store(&self) -> &MemStore {
        self.desk.store.as_ref().expect("an opened ledger")
    }

    pub fn bytes(&self) -> Vec<u8> {
        file_of(&self.commands)
    }

    // ---- single values

    pub fn account(&mut self) -> Account {
        self.rng.pick(&[1, 1, 1, 2, 2, 3, OWNER, 0, u64::MAX])
    }

    fn key(&mut self) -> Key {
        let mut key = [self.rng.below(8) as u8; 32];
        if self.rng.chance(20) {
            key[self.rng.pick(&[0, 15, 31])] ^= 0x80;
        }
        key
    }

    fn moment(&mut self) -> u64 {
        let any = self.rng.draw();
        self.rng.pick(&[0, 1, any, any, any, u64::MAX])
    }

    pub fn now(&mut self) -> BlockTime {
        BlockTime {
            height: self.moment(),
            timestamp_ns: self.moment(),
        }
    }

    fn text(&mut self) -> Vec<u8> {
        let byte = self.rng.draw() as u8;
        let length = match self.rng.below(40) {
            0 => 0,
            1 => MAX_ACTION_LEN - 1,
            2 => MAX_ACTION_LEN,
            3 => MAX_ACTION_LEN + 1,
            4..=7 => 1 + self.rng.below(70),
            8..=15 => 1,
            _ => return self.rng.pick(&SHORT_TEXTS).to_vec(),
        };
        vec![byte; length]
    }

    // A caller who signs with a key of the role, if there is one; now and then something about it is wrong.
    fn caller(&mut self, role: Role) -> Caller {
        let of_role = |(_, p): &&(Key, Principal)| p.role == role;
        let store = self.store();
        let known: Vec<(Key, Account)> = store
            .principals
            .iter()
            .filter(of_role)
            .map(|(k, p)| (*k, p.account_id))
            .collect();
        let stray = (self.key(), self.account());
        let (signer_key, account) = match known.is_empty() || self.rng.chance(8) {
            true => stray,
            false => self.rng.pick(&known),
        };
        let signer = self.or_else_account(account);
        Caller {
            predecessor: self.or_else_account(signer),
            signer,
            signer_key,
        }
    }

    fn or_else_account(&mut self, account: Account) -> Account {
        let other = self.account();
        if self.rng.chance(5) {
            other
        } else {
            account
        }
    }

    fn owner(&mut self) -> Account {
        let owner = self.store().owner;
        self.or_else_account(owner)
    }

    // Mostly a request that waits; else any number up to a little past the last.
    fn request_number(&mut self) -> RequestId {
        let store = self.store();
        let waits = |r: &&ActionRequest| status_of(store, r) == RequestStatus::Pending;
        let waiting: Vec<RequestId> = store.requests.iter().filter(waits).map(|r| r.id).collect();
        let past = store.requests.len() + 2;
        match self.rng.below(100) {
            0..=69 if !waiting.is_empty() => self.rng.pick(&waiting),
            98 => u64::MAX,
            99 => 1 << 32,
            _ => self.rng.below(past) as u64,
        }
    }

    // Mostly the text that was asked for, sometimes nearly that.
    fn approving_text(&mut self, request: RequestId) -> Vec<u8> {
        let asked = self.store().request(request).map(|r| r.action);
        let mut text = match asked {
            Some(text) if !self.rng.chance(8) => text,
            _ => return self.text(),
        };
        match self.rng.below(24) {
            0 => text.push(0),
            1 => drop(text.pop()),
            2 => text[0] ^= 1,
            3 => *text.last_mut().expect("a byte") ^= 1,
            _ => (),
        }
        text
    }

    // ---- single commands

    // Often a key that has made requests and was revoked since, mostly for the same account.
    fn add(&mut self) -> Command {
        let gone = self.gone();
        let (key, account) = match gone.is_empty() || self.rng.chance(40) {
            true => (self.key(), self.account()),
            false => self.rng.pick(&gone),
        };
        let role = self.rng.pick(&[Role::Agent, Role::Agent, Role::Approver]);
        Command::Add {
            caller: self.owner(),
            key,
            account: self.or_else_account(account),
            role,
        }
    }

    fn gone(&self) -> Vec<(Key, Account)> {
        let store = self.store();
        let is_gone = |r: &&ActionRequest| store.principal(&r.agent_key).is_none();
        let requests = store.requests.iter().filter(is_gone);
        requests
            .map(|r| (r.agent_key, r.agent_account_id))
            .collect()
    }

    fn revoke(&mut self) -> Command {
        let known: Vec<Key> = self.store().principals.iter().map(|(k, _)| *k).collect();
        let stray = self.key();
        let key = match known.is_empty() || self.rng.chance(20) {
            true => stray,
            false => self.rng.pick(&known),
        };
        Command::Revoke {
            caller: self.owner(),
            key,
            now: self.now(),
        }
    }

    fn request(&mut self) -> Command {
        let text = self.text();
        self.request_of(text)
    }

    fn request_of(&mut self, text: Vec<u8>) -> Command {
        Command::Request {
            caller: self.caller(Role::Agent),
            text,
            now: self.now(),
        }
    }

    fn approve(&mut self) -> Command {
        let request = self.request_number();
        Command::Approve {
            caller: self.caller(Role::Approver),
            request,
            text: self.approving_text(request),
            now: self.now(),
        }
    }

    fn reject(&mut self) -> Command {
        Command::Reject {
            caller: self.caller(Role::Approver),
            request: self.request_number(),
            now: self.now(),
        }
    }

    pub fn page(&mut self) -> Command {
        let log = self.store().approval_count();
        let half = log / 2;
        let from = [0, 0, half, log.saturating_sub(1), log, log + 1, u64::MAX];
        let limit = [0, 1, 2, 49, 50, 51, 99, 100, 101, 250, u64::MAX];
        Command::Page {
            from: self.rng.pick(&from),
            limit: match self.rng.chance(30) {
                true => None,
                false => Some(self.rng.pick(&limit)),
            },
        }
    }

    pub fn any(&mut self) -> Command {
        match self.rng.below(100) {
            0..=14 => self.add(),
            15..=22 => self.revoke(),
            23..=47 => self.request(),
            48..=69 => self.approve(),
            70..=78 => self.reject(),
            79..=90 => Command::Status {
                request: self.request_number(),
            },
            _ => self.page(),
        }
    }
}

const SHORT_TEXTS: [&[u8]; 6] = [
    b"maxrate=50",
    b"maxrat=50",
    b"maxrate=5",
    b"maxrate=51",
    b"\0",
    b"\xFF\xFE",
];
