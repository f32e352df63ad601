// What the generators reach: every refusal, fault, room and clause, the same for the same seed.

use crate::damage::call;
use crate::generate::file;
use crate::inputs::*;
use crate::maker::Rng;
use crate::reader::{read_all, Fault, INPUT_ROOM};
use crate::rebuild::MemStore;
use crate::records::*;
use crate::replay::{page_rows, Desk};
use crate::sound::{broken, Clause};

#[test]
fn the_same_seed_gives_the_same_bytes() {
    let numbers = |seed, case| {
        let mut rng = Rng::new(seed, case);
        [rng.draw(), rng.draw()]
    };
    assert_eq!(numbers(1, 2), numbers(1, 2));
    assert_ne!(numbers(1, 2), numbers(1, 3));
    assert_ne!(numbers(1, 2), numbers(2, 2));
    assert_eq!(file(3, 4), file(3, 4));
}

// The largest each count has been.
#[derive(Default)]
struct Most {
    keys: usize,
    registrations: u64,
    requests: usize,
    log: usize,
    texts: usize,
    pending: u32,
    page: u64,
}

impl Most {
    fn note(&mut self, store: &MemStore) {
        self.keys = self.keys.max(store.principals.len());
        self.registrations = self.registrations.max(store.registration_count);
        self.requests = self.requests.max(store.requests.len());
        self.log = self.log.max(store.approval_log.len());
        self.texts = self.texts.max(store.text_used());
        for (_, p) in &store.principals {
            self.pending = self.pending.max(p.pending);
        }
    }
}

#[test]
fn files_reach_every_refusal_fault_and_room() {
    let mut refusals = [0; 22];
    let mut most = Most::default();
    let mut rows = page_rows();
    for case in 0..1000 {
        let input = file(1, case);
        assert!(input.len() <= INPUT_ROOM + 1);
        let mut desk = Desk::unopened();
        for command in read_all(&input).0 {
            let outcome = desk.act(&command, &mut rows);
            refusals[outcome.refusal as usize] += 1;
            if outcome.accepted() && command.kind() == 7 {
                most.page = most.page.max(outcome.number);
            }
        }
        desk.store.iter().for_each(|store| most.note(store));
    }
    let missing: Vec<usize> = (0..20).filter(|n| refusals[*n] == 0).collect();
    assert_eq!(missing, []);
    assert_eq!((most.keys, most.registrations), (64, 256));
    assert_eq!((most.requests, most.texts), (256, 32768));
    assert_eq!((most.pending, most.page), (16, 100));
    assert!(most.log > 200);
}

#[test]
fn calls_reach_full_pages_and_every_clause() {
    let mut rows_too_few = 0;
    let mut sound = 0;
    let mut clauses: Vec<Clause> = Vec::new();
    for case in 0..6000 {
        let call = call(1, case);
        match broken(&call.tables) {
            Some(clause) if !clauses.contains(&clause) => clauses.push(clause),
            Some(_) => (),
            None => {
                sound += 1;
                let store = crate::sound::decode(&call.tables).ok();
                let mut desk = Desk { sized: true, store };
                let outcome = desk.act(&call.command, &mut vec![[0; 8]; call.room]);
                let page_room = outcome.refusal == Refusal::PageRoom.number();
                rows_too_few += u64::from(page_room);
            }
        }
    }
    assert_eq!(clauses.len(), 16, "{clauses:?}");
    assert!(rows_too_few > 0);
    assert!(sound > 1000);
}

#[test]
fn made_inputs_are_as_many_as_they_should_be() {
    assert_eq!(up_to_two_bytes().count(), 65_793);
    assert_eq!(open_and_tail().count(), 65_793);
    assert!(every_tag().len() > 256 * 50);
    assert!(every_length().len() > 3000);
    assert!(every_cut_and_change().len() > 3000);
}

#[test]
fn made_inputs_meet_every_fault() {
    let mut seen = [0; 7];
    let groups = [
        every_tag(),
        every_length(),
        every_cut_and_change(),
        at_the_limit(),
    ];
    for input in groups.iter().flatten() {
        if let (_, Some(stop)) = read_all(input) {
            seen[stop.fault as usize] += 1;
        }
    }
    for fault in Fault::ALL {
        assert!(seen[fault as usize] > 0, "{}", fault.name());
    }
}
