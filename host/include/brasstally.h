/* Brasstally's ledger for C: the functions of the archive of crate capi. A ledger lies in three tables that the caller
   owns and lends to each call; no function keeps a pointer, and none demands anything of what the tables hold.

   Each answer has a refusal, 0 if the call was accepted, and a number, which is 0 where it was refused. A refused call
   changes nothing that was lent to it. Tables that hold no sound ledger are refused with BRASSTALLY_DAMAGED; opening
   refuses tables of wrong lengths alone. */
#ifndef BRASSTALLY_H
#define BRASSTALLY_H

#include <stddef.h>
#include <stdint.h>

#ifdef __cplusplus
extern "C" {
#endif

/* The lengths of the tables, in elements. */
#define BRASSTALLY_BOOK_ROWS 1089
#define BRASSTALLY_KEY_ROWS 576
#define BRASSTALLY_TEXT_BYTES 32768

/* A page has at most this many entries. */
#define BRASSTALLY_PAGE_ROWS 100

typedef struct { uint64_t cell[6]; } brasstally_row;
typedef struct { uint8_t byte[32]; } brasstally_key;

/* Slot, request, agent's registration, approver's registration, height and timestamp of the request, and of the approval. */
typedef struct { uint64_t number[8]; } brasstally_entry;

typedef struct {
    uint64_t refusal;
    uint64_t number;
} brasstally_outcome;

/* Index, request, agent's account and registration, height and timestamp of the request, approver's account and
   registration, height and timestamp of the approval, start of the text in the text table, length of the text. */
typedef struct { uint64_t number[12]; } brasstally_proof_row;

/* For the agent and then for the approver: 1 if the registration was revoked, else 0; height and timestamp of that. */
typedef struct { uint64_t number[6]; } brasstally_ends_row;

enum { BRASSTALLY_AGENT = 0, BRASSTALLY_APPROVER = 1 };

enum {
    BRASSTALLY_PENDING = 0,
    BRASSTALLY_APPROVED = 1,
    BRASSTALLY_REJECTED = 2,
    BRASSTALLY_VOID = 3
};

enum {
    BRASSTALLY_NOT_OWNER = 1,
    BRASSTALLY_INDIRECT_CALL = 2,
    BRASSTALLY_UNKNOWN_KEY = 3,
    BRASSTALLY_WRONG_ROLE = 4,
    BRASSTALLY_KEY_ACCOUNT_MISMATCH = 5,
    BRASSTALLY_KEY_ALREADY_REGISTERED = 6,
    BRASSTALLY_KEY_NOT_REGISTERED = 7,
    BRASSTALLY_EMPTY_ACTION = 8,
    BRASSTALLY_ACTION_TOO_LONG = 9,
    BRASSTALLY_TOO_MANY_PENDING = 10,
    BRASSTALLY_REQUEST_NOT_FOUND = 11,
    BRASSTALLY_ALREADY_APPROVED = 12,
    BRASSTALLY_ALREADY_REJECTED = 13,
    BRASSTALLY_AGENT_REVOKED = 14,
    BRASSTALLY_ACTION_MISMATCH = 15,
    BRASSTALLY_SELF_APPROVAL = 16,
    BRASSTALLY_LOG_FULL = 17,
    BRASSTALLY_KEYS_FULL = 18,
    BRASSTALLY_TEXT_FULL = 19,
    BRASSTALLY_DAMAGED = 20,
    BRASSTALLY_PAGE_ROOM = 21,
    BRASSTALLY_NO_SUCH_ROLE = 255
};

/* The tables of a ledger, as every call takes them. */
#define BRASSTALLY_TABLES \
    brasstally_row *book, size_t book_rows, brasstally_key *keys, size_t key_rows, uint8_t *texts, size_t text_bytes
#define BRASSTALLY_TABLES_READ \
    const brasstally_row *book, size_t book_rows, const brasstally_key *keys, size_t key_rows, const uint8_t *texts, \
        size_t text_bytes

/* Fills the tables with the empty ledger of an owner, whatever they held. */
brasstally_outcome brasstally_open(BRASSTALLY_TABLES, uint64_t owner);

/* The number is the registration's. A role other than the two is BRASSTALLY_NO_SUCH_ROLE, which is this interface's own
   and comes after BRASSTALLY_DAMAGED and before all else. */
brasstally_outcome brasstally_add(BRASSTALLY_TABLES, uint64_t caller, const brasstally_key *key, uint64_t account,
                                  uint64_t role);
brasstally_outcome brasstally_revoke(BRASSTALLY_TABLES, uint64_t caller, const brasstally_key *key, uint64_t height,
                                     uint64_t timestamp);

/* The number is the request's. */
brasstally_outcome brasstally_request(BRASSTALLY_TABLES, uint64_t predecessor, uint64_t signer,
                                      const brasstally_key *key, const uint8_t *text, size_t text_length,
                                      uint64_t height, uint64_t timestamp);

/* The number is the approval's index, its slot in the log. */
brasstally_outcome brasstally_approve(BRASSTALLY_TABLES, uint64_t predecessor, uint64_t signer,
                                      const brasstally_key *key, uint64_t request, const uint8_t *text,
                                      size_t text_length, uint64_t height, uint64_t timestamp);

/* The number is the request's. */
brasstally_outcome brasstally_reject(BRASSTALLY_TABLES, uint64_t predecessor, uint64_t signer,
                                     const brasstally_key *key, uint64_t request, uint64_t height,
                                     uint64_t timestamp);

/* The number is a status. */
brasstally_outcome brasstally_status(BRASSTALLY_TABLES_READ, uint64_t request);

/* The number is that of the entries, which are written to the front of `rows`. */
brasstally_outcome brasstally_page(BRASSTALLY_TABLES_READ, uint64_t from, uint64_t limit, brasstally_entry *rows,
                                   size_t row_count);

/* The number is 1 if the request has a proof, which is then written to the row and the keys; else 0, and they stay. */
brasstally_outcome brasstally_proof(BRASSTALLY_TABLES_READ, uint64_t request, brasstally_proof_row *row,
                                    brasstally_key *agent_key, brasstally_key *approver_key);

/* When each of two registrations was revoked, if it was; any numbers may be asked for. The number is 0. */
brasstally_outcome brasstally_revocations(BRASSTALLY_TABLES_READ, uint64_t agent, uint64_t approver,
                                          brasstally_ends_row *row);

/* 1 if the tables hold a sound ledger, else 0. */
uint64_t brasstally_is_sound(BRASSTALLY_TABLES_READ);

/* Replays a command file; the number is that of the bytes of output lines written to `out`. */
brasstally_outcome brasstally_replay(BRASSTALLY_TABLES, const uint8_t *input, size_t input_length, uint8_t *out,
                                     size_t out_room);

#ifdef __cplusplus
}
#endif

#endif
