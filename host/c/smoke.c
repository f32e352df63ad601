/* The archive called from C, for the gate: the auditor's question, with a few calls around it. It says which step failed first. */
#include <stdio.h>
#include <string.h>

#include "brasstally.h"

static brasstally_row book[BRASSTALLY_BOOK_ROWS];
static brasstally_key keys[BRASSTALLY_KEY_ROWS];
static uint8_t texts[BRASSTALLY_TEXT_BYTES];
static uint8_t lines[4096];

#define TABLES book, BRASSTALLY_BOOK_ROWS, keys, BRASSTALLY_KEY_ROWS, texts, BRASSTALLY_TEXT_BYTES

static const char asked[] = "maxrate=50";
static const char typed[] = "maxrat=50";

static int failed(const char *step, brasstally_outcome is, uint64_t refusal, uint64_t number)
{
    if (is.refusal == refusal && is.number == number) return 0;
    printf("smoke: %s gave refusal %llu and number %llu\n", step, (unsigned long long)is.refusal,
           (unsigned long long)is.number);
    return 1;
}

static brasstally_outcome approve(const brasstally_key *key, const char *text)
{
    return brasstally_approve(TABLES, 2, 2, key, 0, (const uint8_t *)text, strlen(text), 3, 4);
}

static int calls(void)
{
    brasstally_key a, b;
    brasstally_entry page[2];
    brasstally_proof_row proof;
    brasstally_ends_row ends;
    brasstally_key by, to;
    memset(&a, 'A', sizeof a);
    memset(&b, 'B', sizeof b);
    memset(page, 0, sizeof page);
    memset(book, 0xFF, sizeof book);
    if (failed("status before opening", brasstally_status(TABLES, 0), BRASSTALLY_DAMAGED, 0)) return 1;
    if (failed("open", brasstally_open(TABLES, 7), 0, 0)) return 1;
    if (failed("add A", brasstally_add(TABLES, 7, &a, 1, BRASSTALLY_AGENT), 0, 0)) return 1;
    if (failed("add B", brasstally_add(TABLES, 7, &b, 2, BRASSTALLY_APPROVER), 0, 1)) return 1;
    if (failed("request", brasstally_request(TABLES, 1, 1, &a, (const uint8_t *)asked, strlen(asked), 1, 2), 0, 0)) return 1;
    if (failed("approve another text", approve(&b, typed), BRASSTALLY_ACTION_MISMATCH, 0)) return 1;
    if (failed("status", brasstally_status(TABLES, 0), 0, BRASSTALLY_PENDING)) return 1;
    if (failed("approve", approve(&b, asked), 0, 0)) return 1;
    if (failed("status", brasstally_status(TABLES, 0), 0, BRASSTALLY_APPROVED)) return 1;
    if (failed("reject", brasstally_reject(TABLES, 2, 2, &b, 0, 5, 6), BRASSTALLY_ALREADY_APPROVED, 0)) return 1;
    if (failed("page without room", brasstally_page(TABLES, 0, 50, page, 0), BRASSTALLY_PAGE_ROOM, 0)) return 1;
    if (failed("page", brasstally_page(TABLES, 0, 50, page, 2), 0, 1)) return 1;
    if (page[0].number[3] != 1 || page[0].number[7] != 4 || page[1].number[0] != 0) {
        printf("smoke: the page's entry is wrong\n");
        return 1;
    }
    if (failed("add without a role", brasstally_add(TABLES, 7, &b, 2, 2), BRASSTALLY_NO_SUCH_ROLE, 0)) return 1;
    if (failed("proof", brasstally_proof(TABLES, 0, &proof, &by, &to), 0, 1)) return 1;
    if (proof.number[6] != 2 || proof.number[11] != strlen(asked) || memcmp(&by, &a, sizeof a) || memcmp(&to, &b, sizeof b)) {
        printf("smoke: the proof is wrong\n");
        return 1;
    }
    if (failed("no proof", brasstally_proof(TABLES, 1, &proof, &by, &to), 0, 0)) return 1;
    if (failed("revoke", brasstally_revoke(TABLES, 7, &a, 7, 8), 0, 0)) return 1;
    if (failed("revocations", brasstally_revocations(TABLES, 0, 1, &ends), 0, 0)) return 1;
    if (ends.number[0] != 1 || ends.number[2] != 8 || ends.number[3] != 0) {
        printf("smoke: the revocations are wrong\n");
        return 1;
    }
    if (brasstally_is_sound(TABLES) != 1) {
        printf("smoke: the tables are not sound\n");
        return 1;
    }
    return 0;
}

/* Document 01's whole example. */
static int example(void)
{
    static const uint8_t input[] = {8, 0, 11, 17, 0, 8, 0, 0, 0, 0, 0, 0, 0, 7, 6, 0, 11, 23, 0, 8, 0, 0, 0, 0, 0, 0, 0, 0, 9, 0, 0};
    static const char expected[] = "0 ok\n1 refused 11 request not found\nstopped at 28: UnknownField\n"
                                   "end 2 commands, 1 accepted, 1 refused\n";
    brasstally_outcome ran = brasstally_replay(TABLES, input, sizeof input, lines, sizeof lines);
    if (failed("replay", ran, 0, sizeof expected - 1)) return 1;
    if (memcmp(lines, expected, sizeof expected - 1) != 0) {
        printf("smoke: the replay's lines are wrong\n");
        return 1;
    }
    return 0;
}

int main(void)
{
    if (calls() || example()) return 1;
    printf("smoke: ok\n");
    return 0;
}
