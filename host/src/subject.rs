// What is compared with the rebuild: a ledger in tables, which is the archive's where that is linked.

use crate::commands::Command;
use crate::layout::Tables;
use crate::proofs::{self, EndsRow, ProofRow};
use crate::records::{Outcome, RegistrationId, RequestId, Row};
use crate::sound;

// A ledger in tables that answers single calls and whole command files.
pub trait Subject {
    fn name(&self) -> &'static str;
    fn tables(&self) -> &Tables;
    fn load(&mut self, tables: &Tables);
    // Does a command. Only a page writes to the rows.
    fn call(&mut self, command: &Command, rows: &mut [Row]) -> Outcome;
    fn is_sound(&self) -> bool;
    // The proof of a request, and the ends of two registrations; where no archive does it, as the rebuild reads the tables.
    fn proof(&self, request: RequestId, lent: &mut ProofRow) -> Outcome {
        proofs::proof(sound::decode(self.tables()).ok().as_ref(), request, lent)
    }
    fn revocations(
        &self,
        agent: RegistrationId,
        approver: RegistrationId,
        row: &mut EndsRow,
    ) -> Outcome {
        let store = sound::decode(self.tables()).ok();
        proofs::revocations(store.as_ref(), agent, approver, row)
    }
    // Replays a command file; the number is that of the bytes written to `out`.
    fn replay(&mut self, input: &[u8], out: &mut [u8]) -> Outcome;
}

#[cfg(feature = "port")]
pub fn ours() -> crate::port::Ledger {
    crate::port::Ledger::new()
}

#[cfg(not(feature = "port"))]
pub fn ours() -> crate::mirror::Mirror {
    crate::mirror::Mirror::new()
}
