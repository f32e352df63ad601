// The source's ledger in ordinary Rust, with document 01's rooms: the side that the proved ledger is compared with.

use crate::records::*;

pub const MAX_ACTION_LEN: usize = 2048;
pub const MAX_PENDING_PER_KEY: u32 = 16;
pub const DEFAULT_PAGE_SIZE: u64 = 50;
pub const MAX_PAGE_SIZE: u64 = 100;
pub const KEY_ROOM: usize = 64;
pub const REGISTRATION_ROOM: u64 = 256;
pub const REQUEST_ROOM: u64 = 256;
pub const LOG_ROOM: u64 = 256;
pub const TEXT_ROOM: usize = 32768;

// What a ledger holds, in lists. Keys stand in the order in which they were added.
#[derive(Clone, Debug, PartialEq, Eq)]
pub struct MemStore {
    pub owner: Account,
    pub principals: Vec<(Key, Principal)>,
    pub requests: Vec<ActionRequest>,
    pub approval_log: Vec<RequestId>,
    pub registration_count: u64,
    pub revocations: Vec<(RegistrationId, BlockTime)>,
}

impl MemStore {
    pub fn new(owner: Account) -> MemStore {
        MemStore {
            owner,
            principals: Vec::new(),
            requests: Vec::new(),
            approval_log: Vec::new(),
            registration_count: 0,
            revocations: Vec::new(),
        }
    }

    fn place(&self, key: &Key) -> Option<usize> {
        self.principals.iter().position(|(k, _)| k == key)
    }

    pub fn principal(&self, key: &Key) -> Option<Principal> {
        self.place(key).map(|i| self.principals[i].1.clone())
    }

    fn insert_principal(&mut self, key: Key, principal: Principal) {
        match self.place(&key) {
            Some(i) => self.principals[i].1 = principal,
            None => self.principals.push((key, principal)),
        }
    }

    fn remove_principal(&mut self, key: &Key) -> Option<Principal> {
        let i = self.place(key)?;
        Some(self.principals.remove(i).1)
    }

    pub fn request_count(&self) -> u64 {
        self.requests.len() as u64
    }

    pub fn request(&self, id: RequestId) -> Option<ActionRequest> {
        self.requests.get(usize::try_from(id).ok()?).cloned()
    }

    fn push_request(&mut self, request: ActionRequest) {
        self.requests.push(request);
    }

    fn replace_request(&mut self, request: ActionRequest) {
        let i = request.id as usize;
        if i < self.requests.len() {
            self.requests[i] = request;
        }
    }

    pub fn approval_count(&self) -> u64 {
        self.approval_log.len() as u64
    }

    pub fn approved_request_id(&self, approval_index: u64) -> Option<RequestId> {
        let i = usize::try_from(approval_index).ok()?;
        self.approval_log.get(i).copied()
    }

    fn push_approval(&mut self, request_id: RequestId) {
        self.approval_log.push(request_id);
    }

    fn increment_registration_count(&mut self) {
        self.registration_count += 1;
    }

    pub fn revocation(&self, registration_id: RegistrationId) -> Option<BlockTime> {
        let found = self
            .revocations
            .iter()
            .find(|(id, _)| *id == registration_id);
        found.map(|(_, at)| *at)
    }

    fn insert_revocation(&mut self, registration_id: RegistrationId, revoked_at: BlockTime) {
        self.revocations.push((registration_id, revoked_at));
    }

    // Text is never freed, so every request's text counts.
    pub fn text_used(&self) -> usize {
        self.requests.iter().map(|r| r.action.len()).sum()
    }
}

pub fn add_principal(
    store: &mut MemStore,
    caller: Account,
    key: Key,
    account_id: Account,
    role: Role,
) -> Result<Principal, Refusal> {
    if caller != store.owner {
        return Err(Refusal::NotOwner);
    }
    if store.principal(&key).is_some() {
        return Err(Refusal::KeyAlreadyRegistered);
    }
    let registration_id = store.registration_count;
    if registration_id >= REGISTRATION_ROOM {
        return Err(Refusal::LogFull);
    }
    if store.principals.len() >= KEY_ROOM {
        return Err(Refusal::KeysFull);
    }
    let principal = Principal {
        account_id,
        role,
        registration_id,
        active_from: store.request_count(),
        pending: 0,
    };
    store.increment_registration_count();
    store.insert_principal(key, principal.clone());
    Ok(principal)
}

pub fn revoke_key(
    store: &mut MemStore,
    caller: Account,
    key: &Key,
    now: BlockTime,
) -> Result<Principal, Refusal> {
    if caller != store.owner {
        return Err(Refusal::NotOwner);
    }
    let removed = store
        .remove_principal(key)
        .ok_or(Refusal::KeyNotRegistered)?;
    store.insert_revocation(removed.registration_id, now);
    Ok(removed)
}

fn authenticate(store: &MemStore, caller: &Caller, role: Role) -> Result<Principal, Refusal> {
    if caller.predecessor != caller.signer {
        return Err(Refusal::IndirectCall);
    }
    let principal = store
        .principal(&caller.signer_key)
        .ok_or(Refusal::UnknownKey)?;
    if principal.role != role {
        return Err(Refusal::WrongRole);
    }
    if principal.account_id != caller.signer {
        return Err(Refusal::KeyAccountMismatch);
    }
    Ok(principal)
}

// The registration that a request was made under, while it is in force.
fn live_agent_registration(store: &MemStore, request: &ActionRequest) -> Option<Principal> {
    store.principal(&request.agent_key).filter(|p| {
        p.role == Role::Agent
            && p.account_id == request.agent_account_id
            && p.active_from <= request.id
    })
}

pub fn request_action(
    store: &mut MemStore,
    caller: &Caller,
    action: Vec<u8>,
    now: BlockTime,
) -> Result<ActionRequest, Refusal> {
    let mut principal = authenticate(store, caller, Role::Agent)?;
    if action.is_empty() {
        return Err(Refusal::EmptyAction);
    }
    if action.len() > MAX_ACTION_LEN {
        return Err(Refusal::ActionTooLong);
    }
    if principal.pending >= MAX_PENDING_PER_KEY {
        return Err(Refusal::TooManyPending);
    }
    let id = store.request_count();
    if id >= REQUEST_ROOM {
        return Err(Refusal::LogFull);
    }
    if action.len() > TEXT_ROOM - store.text_used() {
        return Err(Refusal::TextFull);
    }
    let request = ActionRequest {
        id,
        agent_account_id: caller.signer,
        agent_key: caller.signer_key,
        agent_registration_id: principal.registration_id,
        action,
        requested_at: now,
        approval: None,
        rejection: None,
    };
    principal.pending += 1;
    store.insert_principal(caller.signer_key, principal);
    store.push_request(request.clone());
    Ok(request)
}

pub fn approve(
    store: &mut MemStore,
    caller: &Caller,
    request_id: RequestId,
    action: &[u8],
    now: BlockTime,
) -> Result<ApprovalProof, Refusal> {
    let approver = authenticate(store, caller, Role::Approver)?;
    let (mut request, mut agent) = decidable_request(store, request_id)?;
    if request.action != action {
        return Err(Refusal::ActionMismatch);
    }
    if caller.signer == request.agent_account_id {
        return Err(Refusal::SelfApproval);
    }
    // The source asks this here; in a sound ledger a request that waits always has a slot.
    let approval_index = store.approval_count();
    if approval_index >= LOG_ROOM {
        return Err(Refusal::LogFull);
    }
    let approval = Approval {
        approval_index,
        approver_account_id: caller.signer,
        approver_key: caller.signer_key,
        approver_registration_id: approver.registration_id,
        approved_at: now,
    };
    let proof = request.proof_for(&approval);
    request.approval = Some(approval);
    agent.pending = agent.pending.saturating_sub(1);
    store.insert_principal(request.agent_key, agent);
    store.replace_request(request);
    store.push_approval(request_id);
    Ok(proof)
}

pub fn reject(
    store: &mut MemStore,
    caller: &Caller,
    request_id: RequestId,
    now: BlockTime,
) -> Result<ActionRequest, Refusal> {
    let approver = authenticate(store, caller, Role::Approver)?;
    let (mut request, mut agent) = decidable_request(store, request_id)?;
    if caller.signer == request.agent_account_id {
        return Err(Refusal::SelfApproval);
    }
    request.rejection = Some(Rejection {
        approver_account_id: caller.signer,
        approver_key: caller.signer_key,
        approver_registration_id: approver.registration_id,
        rejected_at: now,
    });
    agent.pending = agent.pending.saturating_sub(1);
    store.insert_principal(request.agent_key, agent);
    store.replace_request(request.clone());
    Ok(request)
}

fn decidable_request(
    store: &MemStore,
    request_id: RequestId,
) -> Result<(ActionRequest, Principal), Refusal> {
    let request = store.request(request_id).ok_or(Refusal::RequestNotFound)?;
    if request.approval.is_some() {
        return Err(Refusal::AlreadyApproved);
    }
    if request.rejection.is_some() {
        return Err(Refusal::AlreadyRejected);
    }
    let agent = live_agent_registration(store, &request).ok_or(Refusal::AgentRevoked)?;
    Ok((request, agent))
}

pub fn request_status(store: &MemStore, request_id: RequestId) -> Option<RequestStatus> {
    store.request(request_id).map(|r| status_of(store, &r))
}

pub fn status_of(store: &MemStore, request: &ActionRequest) -> RequestStatus {
    if request.approval.is_some() {
        RequestStatus::Approved
    } else if request.rejection.is_some() {
        RequestStatus::Rejected
    } else if live_agent_registration(store, request).is_some() {
        RequestStatus::Pending
    } else {
        RequestStatus::Void
    }
}

pub fn proof_revocations(store: &MemStore, proof: &ApprovalProof) -> ProofRevocations {
    ProofRevocations {
        agent: store.revocation(proof.agent_registration_id),
        approver: store.revocation(proof.approver_registration_id),
    }
}

pub fn approval(store: &MemStore, request_id: RequestId) -> Option<ApprovalProof> {
    store.request(request_id)?.proof()
}

// The proofs of a part of the log; a slot without one is passed over.
pub fn approvals(store: &MemStore, from_index: u64, limit: u64) -> Vec<ApprovalProof> {
    let end = from_index
        .saturating_add(limit.min(MAX_PAGE_SIZE))
        .min(store.approval_count());
    let mut out = Vec::new();
    for i in from_index..end {
        let id = store.approved_request_id(i);
        out.extend(id.and_then(|id| approval(store, id)));
    }
    out
}

// Document 01's page: the same proofs as rows of numbers at the front of a lent table, or nothing where that is too short.
pub fn page(
    store: &MemStore,
    from_index: u64,
    limit: u64,
    rows: &mut [Row],
) -> Result<usize, Refusal> {
    let proofs = approvals(store, from_index, limit);
    if rows.len() < proofs.len() {
        return Err(Refusal::PageRoom);
    }
    for (row, proof) in rows.iter_mut().zip(&proofs) {
        *row = entry(proof);
    }
    Ok(proofs.len())
}

fn entry(proof: &ApprovalProof) -> Row {
    [
        proof.approval_index,
        proof.request_id,
        proof.agent_registration_id,
        proof.approver_registration_id,
        proof.requested_at.height,
        proof.requested_at.timestamp_ns,
        proof.approved_at.height,
        proof.approved_at.timestamp_ns,
    ]
}
