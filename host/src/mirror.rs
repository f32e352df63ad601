// The rebuild behind tables, which stands in where no archive is linked: each call takes the ledger out of the tables and lays it back.

use crate::commands::Command;
use crate::layout::{encode, Tables};
use crate::records::{Outcome, Row};
use crate::replay::{replay, Desk};
use crate::sound;
use crate::subject::Subject;

pub struct Mirror {
    tables: Tables,
}

impl Mirror {
    pub fn new() -> Mirror {
        Mirror {
            tables: Tables::zero(),
        }
    }

    fn desk(&self) -> Desk {
        Desk {
            sized: self.tables.sized(),
            store: sound::decode(&self.tables).ok(),
        }
    }

    fn keep(&mut self, desk: Desk) {
        if let Some(store) = desk.store {
            self.tables = encode(&store);
        }
    }
}

impl Subject for Mirror {
    fn name(&self) -> &'static str {
        "the rebuild in tables (no archive is linked)"
    }

    fn tables(&self) -> &Tables {
        &self.tables
    }

    fn load(&mut self, tables: &Tables) {
        self.tables.copy_from(tables);
    }

    fn call(&mut self, command: &Command, rows: &mut [Row]) -> Outcome {
        let mut desk = self.desk();
        let outcome = desk.act(command, rows);
        self.keep(desk);
        outcome
    }

    fn is_sound(&self) -> bool {
        sound::is_sound(&self.tables)
    }

    fn replay(&mut self, input: &[u8], out: &mut [u8]) -> Outcome {
        let mut desk = self.desk();
        let lines = replay(input, &mut desk);
        self.keep(desk);
        out[..lines.len()].copy_from_slice(&lines);
        Outcome {
            refusal: 0,
            number: lines.len() as u64,
        }
    }
}
