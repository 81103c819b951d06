/* A short host in C that owns its words: member 0 of four makes its calls by forgelilac_owned_..., which look at
 * nothing twice. It resumes after opening and after a restore, and at times only to see that no bit was lost. What the
 * other three send is made up here, and signatures are left out: examples/plant.c has a whole host. docs/HOSTS.md, "A
 * host that owns its words". */
#include <stdio.h>
#include <string.h>

#include "forgelilac.h"

enum { CEILING = 64, GUEST = 3 };

/* What a member has. The words are this file's alone, and nothing but the calls below writes them. */
static struct {
    uint32_t state[FORGELILAC_STATE_WORDS], table[FORGELILAC_TABLE_WORDS(CEILING)];
    uint64_t kept[FORGELILAC_KEPT_WORDS(CEILING)];      /* never stored: a resume fills them */
} own;
static struct {
    uint32_t state[FORGELILAC_STATE_WORDS], table[FORGELILAC_TABLE_WORDS(CEILING)];
} disk;

/* A pointer and its length, as the calls take them. */
#define WORDS(array) (array), sizeof(array) / sizeof((array)[0])
#define WELL WORDS(own.state), WORDS(own.table)
#define OWNED WELL, WORDS(own.kept)

static void store(void) {
    memcpy(disk.state, own.state, sizeof own.state);
    memcpy(disk.table, own.table, sizeof own.table);
}

/* What was stored, tested once: 1 where the words are owned from here on, else the member signs nothing. */
static int restore(void) {
    memcpy(own.state, disk.state, sizeof own.state);
    memcpy(own.table, disk.table, sizeof own.table);
    return forgelilac_owned_resume(OWNED) == FORGELILAC_ACCEPTED;
}

/* The certificate of another member, endorsed by all, which names the whole round before. */
static uint32_t accept_of(uint32_t author) {
    uint32_t words[FORGELILAC_CERTIFICATE_WORDS] = {0};
    words[FORGELILAC_PROPOSAL_AUTHOR] = author;
    words[FORGELILAC_PROPOSAL_ROUND] = own.state[FORGELILAC_STATE_ROUND];
    forgelilac_begin_body(words + FORGELILAC_PROPOSAL_BODY, own.state[FORGELILAC_STATE_ROUND] == 1 ? 0 : 0xf);
    words[FORGELILAC_CERTIFICATE_ENDORSERS] = 0xfu & ~(1u << author);
    return forgelilac_owned_accept(OWNED, WORDS(words));
}

/* One's own proposal of what the guest has sent, its certificate, and those of the others. */
static int whole_round(uint32_t entry) {
    uint32_t transaction[FORGELILAC_TRANSACTION_WORDS] = {FORGELILAC_ENTRY, entry, 0};
    uint32_t previous = own.state[FORGELILAC_STATE_ROUND] == 1 ? 0 : 0xf, refused = 0;
    refused |= forgelilac_owned_guest_enqueue(GUEST, OWNED, WORDS(transaction));
    refused |= forgelilac_owned_draw(OWNED, previous);
    store();                                            /* before the signature leaves */
    refused |= forgelilac_owned_certify(OWNED, 0xe);
    for (uint32_t author = 1; author < 4; author++) refused |= accept_of(author);
    return refused == 0;
}

static void list(void) {
    static uint32_t chain[FORGELILAC_CHAIN_WORDS(CEILING)];
    uint32_t count = forgelilac_value_of(forgelilac_owned_chain(OWNED, WORDS(chain)));
    for (const uint32_t *at = chain; at < chain + FORGELILAC_LISTED_WORDS * count; at += FORGELILAC_LISTED_WORDS)
        printf("  block %u: round %u, author %u\n", (unsigned)at[FORGELILAC_LISTED_BLOCK],
               (unsigned)at[FORGELILAC_LISTED_ROUND], (unsigned)at[FORGELILAC_LISTED_AUTHOR]);
}

int main(void) {
    uint32_t sheet[FORGELILAC_SHEET_WORDS], weights[FORGELILAC_COMMITTEE_WORDS];
    uint64_t answer;
    forgelilac_blank_sheet(sheet);
    forgelilac_write_setting(sheet, FORGELILAC_CEILING, CEILING);
    printf("open %u", (unsigned)forgelilac_open(WELL, 0, WORDS(sheet), FORGELILAC_RIGHTS(1u << GUEST, 0, 0, 0)));
    printf(", resume %u\n", (unsigned)forgelilac_owned_resume(OWNED));

    for (uint32_t entry = 10; entry <= 30; entry += 10) {
        printf("round %u: %s\n", (unsigned)own.state[FORGELILAC_STATE_ROUND], whole_round(entry) ? "all held" : "refused");
        if (entry < 30 && forgelilac_owned_advance(OWNED) != FORGELILAC_ACCEPTED) return 1;
    }
    answer = forgelilac_owned_commit(OWNED);
    printf("commit: %u block\n", (unsigned)forgelilac_value_of(answer));
    list();
    store();

    printf("again: refused with %u\n", (unsigned)forgelilac_refusal_of(forgelilac_owned_commit(OWNED)));
    printf("a guest without the right: %u\n", (unsigned)forgelilac_owned_guest_advance(5, OWNED));
    printf("no bit lost: resume %u\n", (unsigned)forgelilac_owned_resume(OWNED));

    memset(&own, 0, sizeof own);                        /* the power fails, and comes again */
    printf("restored: %s\n", restore() ? "owned" : "not owned");
    printf("advance %u", (unsigned)forgelilac_owned_advance(OWNED));
    printf(", round %u\n", (unsigned)own.state[FORGELILAC_STATE_ROUND]);
    printf("committee of round 24: %u", (unsigned)forgelilac_owned_committee(OWNED, 24, WORDS(weights)));
    printf(", weight of member 3: %u\n", (unsigned)weights[3]);

    /* The medium has lost a held bit: the state is well formed, and names what is not held. */
    disk.table[FORGELILAC_ROW(1) + FORGELILAC_ROW_HELD] ^= 1;
    printf("well formed: %d, ", forgelilac_is_well_formed(WORDS(disk.state), WORDS(disk.table)));
    printf("restored: %s\n", restore() ? "owned" : "not owned");
    return 0;
}
