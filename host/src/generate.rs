// Command files made by chance, for the comparison: the same seed and case give the same bytes, and every refusal and room is reached.

use crate::commands::{field, Command};
use crate::maker::{numbered, Maker};
use crate::rebuild::MAX_ACTION_LEN;
use crate::records::*;

pub fn file(seed: u64, case: u64) -> Vec<u8> {
    let mut m = Maker::new(seed, case);
    match m.rng.below(1000) {
        0..=499 => return everyday(&mut m),
        500..=659 => return damaged_copy(&mut m),
        660..=849 => return misfielded(&mut m),
        850..=909 => m.pending_full(),
        910..=969 => {
            let length = 1 + m.rng.below(12);
            m.logged(length);
        }
        _ => m.full(),
    }
    m.days(4, 12);
    m.bytes()
}

fn everyday(m: &mut Maker) -> Vec<u8> {
    if m.rng.chance(85) {
        m.cast();
    }
    m.days(2, 32);
    m.bytes()
}

// A short file with one byte changed, added, lost, or everything lost from one place on.
fn damaged_copy(m: &mut Maker) -> Vec<u8> {
    m.cast();
    m.days(1, 12);
    let mut bytes = m.bytes();
    let at = m.rng.below(bytes.len());
    match m.rng.below(5) {
        0 => bytes.truncate(at),
        1 => drop(bytes.remove(at)),
        2 => bytes.insert(at, m.rng.draw() as u8),
        3 => bytes[at] ^= 1 << m.rng.below(8),
        _ => bytes[at] = m.rng.draw() as u8,
    }
    bytes
}

// A short file whose last command has its fields wrong, though lengths add up.
fn misfielded(m: &mut Maker) -> Vec<u8> {
    m.cast();
    m.days(0, 6);
    let command = m.any();
    let mut fields = command.fields();
    let at = m.rng.below(fields.len());
    match m.rng.below(7) {
        0 => drop(fields.remove(at)),
        1 => fields.insert(at, fields[at].clone()),
        2 => fields.swap(0, at),
        3 => fields[at][0] = m.rng.below(0x20) as u8,
        4 => fields[at] = resized(&fields[at], m.rng.below(40)),
        5 => fields.push(vec![m.rng.below(0x20) as u8; 1 + m.rng.below(4)]),
        _ => fields[at][2] = m.rng.draw() as u8,
    }
    let kind = match m.rng.chance(90) {
        true => command.kind(),
        false => m.rng.below(0x20) as u8,
    };
    [m.bytes(), field(kind, &fields.concat())].concat()
}

fn resized(old: &[u8], length: usize) -> Vec<u8> {
    let mut value = old[3..].to_vec();
    value.resize(length, 0);
    field(old[0], &value)
}

// ---- sequences

impl Maker {
    pub fn days(&mut self, least: usize, more: usize) {
        for _ in 0..least + self.rng.below(more) {
            let command = self.any();
            self.push(command);
        }
    }

    fn add_key(&mut self, key: Key, account: Account, role: Role) {
        let caller = self.store().owner;
        self.push(Command::Add {
            caller,
            key,
            account,
            role,
        });
    }

    // An Agent's key of account 1, Approvers' of 2 and of 1.
    pub fn cast(&mut self) {
        self.add_key([b'A'; 32], 1, Role::Agent);
        self.add_key([b'B'; 32], 2, Role::Approver);
        self.add_key([b'C'; 32], 1, Role::Approver);
    }

    fn signed(account: Account, signer_key: Key) -> Caller {
        Caller {
            predecessor: account,
            signer: account,
            signer_key,
        }
    }

    fn ask(&mut self, account: Account, key: Key, text: &[u8]) {
        let now = self.now();
        self.push(Command::Request {
            caller: Maker::signed(account, key),
            text: text.to_vec(),
            now,
        });
    }

    // The Approver of account 2 decides the latest request.
    fn decide(&mut self, approve: bool) {
        let now = self.now();
        let caller = Maker::signed(2, [b'B'; 32]);
        let last = match self.store().requests.last() {
            Some(last) => last.clone(),
            None => return,
        };
        let (request, text) = (last.id, last.action);
        self.push(match approve {
            true => Command::Approve {
                caller,
                request,
                text,
                now,
            },
            false => Command::Reject {
                caller,
                request,
                now,
            },
        });
    }

    // A ledger with one of its rooms used up, or nearly.
    pub fn full(&mut self) {
        match self.rng.below(20) {
            0..=7 => self.keys_full(),
            8..=12 => self.text_full(),
            13..=15 => self.registrations_full(),
            16..=17 => self.requests_full(),
            _ => {
                let length = 99 + self.rng.below(158);
                self.logged(length);
            }
        }
    }

    // Sixteen requests wait under one key.
    pub fn pending_full(&mut self) {
        self.cast();
        for _ in 0..16 + self.rng.below(4) {
            self.ask(1, [b'A'; 32], b"maxrate=50");
            if self.rng.chance(15) {
                let approve = self.rng.chance(50);
                self.decide(approve);
            }
        }
    }

    // All places for keys are taken, after some that came and went.
    fn keys_full(&mut self) {
        self.cast();
        let gone = self.rng.below(8);
        for number in 0..61 + gone + self.rng.below(3) {
            let role = self.rng.pick(&[Role::Agent, Role::Approver]);
            let account = self.account();
            self.add_key(numbered(number), account, role);
            if number < gone {
                self.drop_key(numbered(number));
            }
        }
    }

    fn drop_key(&mut self, key: Key) {
        let caller = self.store().owner;
        let now = self.now();
        self.push(Command::Revoke { caller, key, now });
    }

    // All registrations are used: most keys come and go, and then as many stay as chance will have, 64 at most.
    fn registrations_full(&mut self) {
        self.cast();
        let staying = self.rng.pick(&[0, 30, 60, 61, 61]);
        let passing = 253 - staying;
        for number in 0..253 + self.rng.below(3) {
            self.add_key(numbered(number), 3, Role::Agent);
            if number < passing {
                self.drop_key(numbered(number));
            }
        }
    }

    // All requests are used: decided as they come, or waiting under sixteen keys.
    fn requests_full(&mut self) {
        self.cast();
        let keys = self.rng.pick(&[1, 15, 16]);
        for number in 0..keys {
            self.add_key(numbered(number), 3, Role::Agent);
        }
        for n in 0..256 {
            self.ask(3, numbered(n % keys), &[n as u8]);
            if keys == 1 || n < 16 {
                let approve = self.rng.chance(60);
                self.decide(approve);
            }
        }
    }

    // A log of some length, and pages of it.
    fn logged(&mut self, length: usize) {
        self.cast();
        for n in 0..length {
            self.ask(1, [b'A'; 32], &[n as u8]);
            self.decide(true);
        }
        self.push(Command::Page {
            from: 0,
            limit: Some(250),
        });
        for _ in 0..5 {
            let page = self.page();
            self.push(page);
        }
    }

    // The text table is full, or short of that by a byte or a few.
    fn text_full(&mut self) {
        self.cast();
        self.add_key(numbered(0), 3, Role::Agent);
        let short = self.rng.pick(&[0, 0, 1, 2, 2047]);
        for n in 0..16 {
            let length = MAX_ACTION_LEN - if n == 15 { short } else { 0 };
            self.ask(1, [b'A'; 32], &vec![n as u8; length]);
        }
        for length in [short + 1, short, 1] {
            self.ask(3, numbered(0), &vec![9; length]);
        }
    }
}
