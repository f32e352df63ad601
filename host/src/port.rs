// The archive's C functions behind a ledger that owns its tables and lends them. All unsafe code of the host stands here, and none is seen outside.

use crate::commands::Command;
use crate::layout::{Cells, Tables};
use crate::proofs::{EndsRow, ProofRow};
use crate::rebuild::DEFAULT_PAGE_SIZE;
use crate::records::*;
use crate::subject::Subject;

#[link(name = "capi", kind = "static")]
extern "C" {
    fn brasstally_open(
        book: *mut Cells,
        book_rows: usize,
        keys: *mut Key,
        key_rows: usize,
        texts: *mut u8,
        text_bytes: usize,
        owner: u64,
    ) -> Outcome;
    fn brasstally_add(
        book: *mut Cells,
        book_rows: usize,
        keys: *mut Key,
        key_rows: usize,
        texts: *mut u8,
        text_bytes: usize,
        caller: u64,
        key: &Key,
        account: u64,
        role: u64,
    ) -> Outcome;
    fn brasstally_revoke(
        book: *mut Cells,
        book_rows: usize,
        keys: *mut Key,
        key_rows: usize,
        texts: *mut u8,
        text_bytes: usize,
        caller: u64,
        key: &Key,
        height: u64,
        timestamp: u64,
    ) -> Outcome;
    fn brasstally_request(
        book: *mut Cells,
        book_rows: usize,
        keys: *mut Key,
        key_rows: usize,
        texts: *mut u8,
        text_bytes: usize,
        predecessor: u64,
        signer: u64,
        key: &Key,
        text: *const u8,
        text_length: usize,
        height: u64,
        timestamp: u64,
    ) -> Outcome;
    fn brasstally_approve(
        book: *mut Cells,
        book_rows: usize,
        keys: *mut Key,
        key_rows: usize,
        texts: *mut u8,
        text_bytes: usize,
        predecessor: u64,
        signer: u64,
        key: &Key,
        request: u64,
        text: *const u8,
        text_length: usize,
        height: u64,
        timestamp: u64,
    ) -> Outcome;
    fn brasstally_reject(
        book: *mut Cells,
        book_rows: usize,
        keys: *mut Key,
        key_rows: usize,
        texts: *mut u8,
        text_bytes: usize,
        predecessor: u64,
        signer: u64,
        key: &Key,
        request: u64,
        height: u64,
        timestamp: u64,
    ) -> Outcome;
    fn brasstally_status(
        book: *const Cells,
        book_rows: usize,
        keys: *const Key,
        key_rows: usize,
        texts: *const u8,
        text_bytes: usize,
        request: u64,
    ) -> Outcome;
    fn brasstally_page(
        book: *const Cells,
        book_rows: usize,
        keys: *const Key,
        key_rows: usize,
        texts: *const u8,
        text_bytes: usize,
        from: u64,
        limit: u64,
        rows: *mut Row,
        row_count: usize,
    ) -> Outcome;
    fn brasstally_proof(
        book: *const Cells,
        book_rows: usize,
        keys: *const Key,
        key_rows: usize,
        texts: *const u8,
        text_bytes: usize,
        request: u64,
        row: &mut [u64; 12],
        agent_key: &mut Key,
        approver_key: &mut Key,
    ) -> Outcome;
    fn brasstally_revocations(
        book: *const Cells,
        book_rows: usize,
        keys: *const Key,
        key_rows: usize,
        texts: *const u8,
        text_bytes: usize,
        agent: u64,
        approver: u64,
        row: &mut EndsRow,
    ) -> Outcome;
    fn brasstally_is_sound(
        book: *const Cells,
        book_rows: usize,
        keys: *const Key,
        key_rows: usize,
        texts: *const u8,
        text_bytes: usize,
    ) -> u64;
    fn brasstally_replay(
        book: *mut Cells,
        book_rows: usize,
        keys: *mut Key,
        key_rows: usize,
        texts: *mut u8,
        text_bytes: usize,
        input: *const u8,
        input_length: usize,
        out: *mut u8,
        out_room: usize,
    ) -> Outcome;
}

// Calls a function with the three tables in front of its other arguments, by `as_ptr` to read and `as_mut_ptr` to change.
// This is sound for every function above: each slice is given with its own length, tables are borrowed for the time of the
// call and distinct from all else that is lent, any bytes are valid contents, and the archive keeps no pointer.
macro_rules! lend {
    ($tables:expr, $pointer:ident, $function:ident $(, $argument:expr)*) => {{
        let t = $tables;
        let (book, keys, texts) = (t.book.$pointer(), t.keys.$pointer(), t.texts.$pointer());
        let (rows, key_rows, bytes) = (t.book.len(), t.keys.len(), t.texts.len());
        unsafe { $function(book, rows, keys, key_rows, texts, bytes $(, $argument)*) }
    }};
}

// A ledger of the archive.
pub struct Ledger {
    tables: Tables,
}

impl Ledger {
    // Tables of the right lengths, all zero: the empty ledger of owner 0.
    pub fn new() -> Ledger {
        Ledger {
            tables: Tables::zero(),
        }
    }

    pub fn open(&mut self, owner: Account) -> Outcome {
        lend!(&mut self.tables, as_mut_ptr, brasstally_open, owner)
    }

    pub fn add(&mut self, caller: Account, key: &Key, account: Account, role: Role) -> Outcome {
        let role = role.number();
        let t = &mut self.tables;
        lend!(t, as_mut_ptr, brasstally_add, caller, key, account, role)
    }

    pub fn revoke(&mut self, caller: Account, key: &Key, now: BlockTime) -> Outcome {
        let (h, s) = (now.height, now.timestamp_ns);
        let t = &mut self.tables;
        lend!(t, as_mut_ptr, brasstally_revoke, caller, key, h, s)
    }

    pub fn request(&mut self, caller: &Caller, text: &[u8], now: BlockTime) -> Outcome {
        lend!(
            &mut self.tables,
            as_mut_ptr,
            brasstally_request,
            caller.predecessor,
            caller.signer,
            &caller.signer_key,
            text.as_ptr(),
            text.len(),
            now.height,
            now.timestamp_ns
        )
    }

    pub fn approve(
        &mut self,
        caller: &Caller,
        request: RequestId,
        text: &[u8],
        now: BlockTime,
    ) -> Outcome {
        lend!(
            &mut self.tables,
            as_mut_ptr,
            brasstally_approve,
            caller.predecessor,
            caller.signer,
            &caller.signer_key,
            request,
            text.as_ptr(),
            text.len(),
            now.height,
            now.timestamp_ns
        )
    }

    pub fn reject(&mut self, caller: &Caller, request: RequestId, now: BlockTime) -> Outcome {
        lend!(
            &mut self.tables,
            as_mut_ptr,
            brasstally_reject,
            caller.predecessor,
            caller.signer,
            &caller.signer_key,
            request,
            now.height,
            now.timestamp_ns
        )
    }

    pub fn status(&self, request: RequestId) -> Outcome {
        lend!(&self.tables, as_ptr, brasstally_status, request)
    }

    pub fn page(&self, from: u64, limit: u64, rows: &mut [Row]) -> Outcome {
        let (row, count) = (rows.as_mut_ptr(), rows.len());
        let t = &self.tables;
        lend!(t, as_ptr, brasstally_page, from, limit, row, count)
    }
}

impl Subject for Ledger {
    fn name(&self) -> &'static str {
        "the archive of crate capi"
    }

    fn tables(&self) -> &Tables {
        &self.tables
    }

    fn load(&mut self, tables: &Tables) {
        self.tables.copy_from(tables);
    }

    fn call(&mut self, command: &Command, rows: &mut [Row]) -> Outcome {
        match command {
            Command::Open { owner } => self.open(*owner),
            Command::Add {
                caller,
                key,
                account,
                role,
            } => self.add(*caller, key, *account, *role),
            Command::Revoke { caller, key, now } => self.revoke(*caller, key, *now),
            Command::Request { caller, text, now } => self.request(caller, text, *now),
            Command::Approve {
                caller,
                request,
                text,
                now,
            } => self.approve(caller, *request, text, *now),
            Command::Reject {
                caller,
                request,
                now,
            } => self.reject(caller, *request, *now),
            Command::Status { request } => self.status(*request),
            Command::Page { from, limit } => {
                self.page(*from, limit.unwrap_or(DEFAULT_PAGE_SIZE), rows)
            }
        }
    }

    fn is_sound(&self) -> bool {
        lend!(&self.tables, as_ptr, brasstally_is_sound) == 1
    }

    fn proof(&self, request: RequestId, lent: &mut ProofRow) -> Outcome {
        let (row, agent) = (&mut lent.numbers, &mut lent.agent_key);
        let approver = &mut lent.approver_key;
        let t = &self.tables;
        lend!(t, as_ptr, brasstally_proof, request, row, agent, approver)
    }

    fn revocations(
        &self,
        agent: RegistrationId,
        approver: RegistrationId,
        row: &mut EndsRow,
    ) -> Outcome {
        let t = &self.tables;
        lend!(t, as_ptr, brasstally_revocations, agent, approver, row)
    }

    fn replay(&mut self, input: &[u8], out: &mut [u8]) -> Outcome {
        let (bytes, length) = (input.as_ptr(), input.len());
        let (to, room) = (out.as_mut_ptr(), out.len());
        let t = &mut self.tables;
        lend!(t, as_mut_ptr, brasstally_replay, bytes, length, to, room)
    }
}
