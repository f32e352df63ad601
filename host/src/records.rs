// The ledger's records and refusals in the source's names, for every part of the host.

pub type Account = u64;
pub type Key = [u8; 32];
pub type RequestId = u64;
pub type RegistrationId = u64;

#[derive(Clone, Copy, Debug, PartialEq, Eq)]
pub enum Role {
    Agent,
    Approver,
}

impl Role {
    pub fn number(self) -> u64 {
        match self {
            Role::Agent => 0,
            Role::Approver => 1,
        }
    }

    pub fn by_number(number: u64) -> Option<Role> {
        match number {
            0 => Some(Role::Agent),
            1 => Some(Role::Approver),
            _ => None,
        }
    }
}

#[derive(Clone, Copy, Debug, PartialEq, Eq)]
pub struct BlockTime {
    pub height: u64,
    pub timestamp_ns: u64,
}

#[derive(Clone, Debug, PartialEq, Eq)]
pub struct Principal {
    pub account_id: Account,
    pub role: Role,
    pub registration_id: RegistrationId,
    pub active_from: RequestId,
    pub pending: u32,
}

#[derive(Clone, Debug, PartialEq, Eq)]
pub struct Caller {
    pub predecessor: Account,
    pub signer: Account,
    pub signer_key: Key,
}

#[derive(Clone, Debug, PartialEq, Eq)]
pub struct Approval {
    pub approval_index: u64,
    pub approver_account_id: Account,
    pub approver_key: Key,
    pub approver_registration_id: RegistrationId,
    pub approved_at: BlockTime,
}

#[derive(Clone, Debug, PartialEq, Eq)]
pub struct Rejection {
    pub approver_account_id: Account,
    pub approver_key: Key,
    pub approver_registration_id: RegistrationId,
    pub rejected_at: BlockTime,
}

#[derive(Clone, Debug, PartialEq, Eq)]
pub struct ActionRequest {
    pub id: RequestId,
    pub agent_account_id: Account,
    pub agent_key: Key,
    pub agent_registration_id: RegistrationId,
    pub action: Vec<u8>,
    pub requested_at: BlockTime,
    pub approval: Option<Approval>,
    pub rejection: Option<Rejection>,
}

impl ActionRequest {
    pub fn proof(&self) -> Option<ApprovalProof> {
        self.approval.as_ref().map(|a| self.proof_for(a))
    }

    pub fn proof_for(&self, approval: &Approval) -> ApprovalProof {
        ApprovalProof {
            approval_index: approval.approval_index,
            request_id: self.id,
            action: self.action.clone(),
            agent_account_id: self.agent_account_id,
            agent_key: self.agent_key,
            agent_registration_id: self.agent_registration_id,
            requested_at: self.requested_at,
            approver_account_id: approval.approver_account_id,
            approver_key: approval.approver_key,
            approver_registration_id: approval.approver_registration_id,
            approved_at: approval.approved_at,
        }
    }
}

#[derive(Clone, Copy, Debug, PartialEq, Eq)]
pub enum RequestStatus {
    Pending,
    Approved,
    Rejected,
    Void,
}

impl RequestStatus {
    pub const ALL: [RequestStatus; 4] = [
        RequestStatus::Pending,
        RequestStatus::Approved,
        RequestStatus::Rejected,
        RequestStatus::Void,
    ];

    pub fn number(self) -> u64 {
        self as u64
    }

    pub fn name(self) -> &'static str {
        match self {
            RequestStatus::Pending => "Pending",
            RequestStatus::Approved => "Approved",
            RequestStatus::Rejected => "Rejected",
            RequestStatus::Void => "Void",
        }
    }
}

#[derive(Clone, Debug, PartialEq, Eq)]
pub struct ApprovalProof {
    pub approval_index: u64,
    pub request_id: RequestId,
    pub action: Vec<u8>,
    pub agent_account_id: Account,
    pub agent_key: Key,
    pub agent_registration_id: RegistrationId,
    pub requested_at: BlockTime,
    pub approver_account_id: Account,
    pub approver_key: Key,
    pub approver_registration_id: RegistrationId,
    pub approved_at: BlockTime,
}

#[derive(Clone, Copy, Debug, PartialEq, Eq)]
pub struct ProofRevocations {
    pub agent: Option<BlockTime>,
    pub approver: Option<BlockTime>,
}

// Why a call is refused; the number is the place in document 01's table.
#[derive(Clone, Copy, Debug, PartialEq, Eq)]
pub enum Refusal {
    NotOwner = 1,
    IndirectCall,
    UnknownKey,
    WrongRole,
    KeyAccountMismatch,
    KeyAlreadyRegistered,
    KeyNotRegistered,
    EmptyAction,
    ActionTooLong,
    TooManyPending,
    RequestNotFound,
    AlreadyApproved,
    AlreadyRejected,
    AgentRevoked,
    ActionMismatch,
    SelfApproval,
    LogFull,
    KeysFull,
    TextFull,
    Damaged,
    PageRoom,
}

impl Refusal {
    pub const ALL: [Refusal; 21] = [
        Refusal::NotOwner,
        Refusal::IndirectCall,
        Refusal::UnknownKey,
        Refusal::WrongRole,
        Refusal::KeyAccountMismatch,
        Refusal::KeyAlreadyRegistered,
        Refusal::KeyNotRegistered,
        Refusal::EmptyAction,
        Refusal::ActionTooLong,
        Refusal::TooManyPending,
        Refusal::RequestNotFound,
        Refusal::AlreadyApproved,
        Refusal::AlreadyRejected,
        Refusal::AgentRevoked,
        Refusal::ActionMismatch,
        Refusal::SelfApproval,
        Refusal::LogFull,
        Refusal::KeysFull,
        Refusal::TextFull,
        Refusal::Damaged,
        Refusal::PageRoom,
    ];

    pub fn number(self) -> u64 {
        self as u64
    }

    pub fn by_number(number: u64) -> Option<Refusal> {
        Refusal::ALL.iter().copied().find(|r| r.number() == number)
    }

    pub fn as_str(self) -> &'static str {
        match self {
            Refusal::NotOwner => "only the owner can manage keys",
            Refusal::IndirectCall => "caller must be the signing account",
            Refusal::UnknownKey => "signing key is unknown",
            Refusal::WrongRole => "signing key has the wrong role",
            Refusal::KeyAccountMismatch => "signing key belongs to another account",
            Refusal::KeyAlreadyRegistered => "key is already registered",
            Refusal::KeyNotRegistered => "key to revoke was not found",
            Refusal::EmptyAction => "action is empty",
            Refusal::ActionTooLong => "action exceeds 2048 bytes",
            Refusal::TooManyPending => "agent key has too many pending requests",
            Refusal::RequestNotFound => "request not found",
            Refusal::AlreadyApproved => "request is already approved",
            Refusal::AlreadyRejected => "request is already rejected",
            Refusal::AgentRevoked => "request is void: its agent key was revoked",
            Refusal::ActionMismatch => "action does not match the request",
            Refusal::SelfApproval => "approver and agent must be different accounts",
            Refusal::LogFull => "log is full",
            Refusal::KeysFull => "key table is full",
            Refusal::TextFull => "text table is full",
            Refusal::Damaged => "tables are not a sound ledger",
            Refusal::PageRoom => "page does not hold the answer",
        }
    }
}

// One entry of a page as plain numbers: slot, request, agent's and approver's registration, and both times.
pub type Row = [u64; 8];

// A call's answer as the archive gives it: refusal 0 is an accepted call, and then `number` tells what it gave.
#[repr(C)]
#[derive(Clone, Copy, Debug, PartialEq, Eq)]
pub struct Outcome {
    pub refusal: u64,
    pub number: u64,
}

impl Outcome {
    pub fn accepted(self) -> bool {
        self.refusal == 0
    }

    // The same answer for a caller in Rust. A number that is no refusal's is a fault of the archive.
    pub fn told(self) -> Result<u64, Refusal> {
        if self.accepted() {
            return Ok(self.number);
        }
        Err(Refusal::by_number(self.refusal).expect("a refusal of the table"))
    }
}

impl From<Result<u64, Refusal>> for Outcome {
    fn from(told: Result<u64, Refusal>) -> Outcome {
        match told {
            Ok(number) => Outcome { refusal: 0, number },
            Err(refusal) => Outcome {
                refusal: refusal.number(),
                number: 0,
            },
        }
    }
}
