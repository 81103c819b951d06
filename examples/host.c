/* A host of three members in one process, in C: the run of bindings/rust/examples/host.rs.
 * A real host signs what it sends, checks signatures before endorse, certify and accept, and
 * stores state and table before it sends a signature (docs/HOSTS.md). */
#include <stdio.h>
#include <stdlib.h>

#define FORGELILAC_ANSWERS /* calls with a value answer struct forgelilac_answer */
#include "forgelilac.h"

enum { MEMBERS = 3, CEILING = 64, LAST_ROUND = 9, BUNDLE = 3 * MEMBERS, BUSY = 2, LINE = 3, CLOCK = 5 };

struct engine {
    uint32_t state[FORGELILAC_STATE_WORDS];
    uint32_t table[FORGELILAC_TABLE_WORDS(CEILING)];
};

static struct engine engines[MEMBERS];

/* A pointer and its length, as the calls take them. */
#define WORDS(array) (array), sizeof(array) / sizeof(uint32_t)
#define ENGINE(e) WORDS((e)->state), WORDS((e)->table)

static void must(const char *call, uint32_t refusal) {
    if (refusal == FORGELILAC_ACCEPTED) return;
    fprintf(stderr, "%s refused with %u: %s\n", call, (unsigned)refusal, forgelilac_refusal_text(refusal));
    exit(1);
}

static void open_member(struct engine *e, uint32_t own) {
    uint32_t sheet[FORGELILAC_SHEET_WORDS];
    forgelilac_blank_sheet(sheet);
    forgelilac_write_setting(sheet, FORGELILAC_LOOKBACK, 2);
    forgelilac_write_setting(sheet, FORGELILAC_CEILING, CEILING);
    forgelilac_write_weight(sheet, 3, 0);
    must("open", forgelilac_open(ENGINE(e), own, WORDS(sheet), FORGELILAC_NO_RIGHTS));
}

/* A fourth computer, which here is alone, with rights of its guests. */
static void open_alone(struct engine *e, uint32_t rights) {
    uint32_t sheet[FORGELILAC_SHEET_WORDS];
    forgelilac_blank_sheet(sheet);
    forgelilac_write_setting(sheet, FORGELILAC_CEILING, CEILING);
    for (unsigned m = 0; m < 4; m++) forgelilac_write_weight(sheet, m, m == 3);
    must("open", forgelilac_open(ENGINE(e), 3, WORDS(sheet), rights));
}

/* The authors whose certificates of a round are held; none of round 0, since row 0 belongs to no round. */
static uint32_t held(const struct engine *e, uint32_t round) {
    return round == 0 ? 0 : e->table[FORGELILAC_ROW(round) + FORGELILAC_ROW_HELD];
}

/* Proposes an entry, naming all that it holds of the round before; in round 1 member 0 also bonds 2. */
static uint32_t propose(struct engine *e) {
    uint32_t body[FORGELILAC_BODY_WORDS];
    uint32_t own = e->state[FORGELILAC_STATE_OWN], round = e->state[FORGELILAC_STATE_ROUND];
    forgelilac_begin_body(body, held(e, round - 1));
    forgelilac_add_entry(body, 100 * round + own);
    if (own == 0 && round == 1) forgelilac_add_bond(body, 0, 2);
    return forgelilac_propose(ENGINE(e), WORDS(body));
}

/* One member's proposal is endorsed and certified; the others accept the certificate. */
static void circulate(uint32_t author) {
    uint32_t certificate[FORGELILAC_CERTIFICATE_WORDS] = {0};
    uint32_t *endorsers = certificate + FORGELILAC_CERTIFICATE_ENDORSERS;
    must("propose", propose(&engines[author]));
    if (!forgelilac_own_proposal(engines[author].state, certificate)) must("propose", FORGELILAC_NO_PROPOSAL);
    for (uint32_t m = 0; m < MEMBERS; m++)
        if (m != author && forgelilac_endorse(ENGINE(&engines[m]), WORDS(certificate)) == 0)
            *endorsers |= UINT32_C(1) << m;
    must("certify", forgelilac_certify(ENGINE(&engines[author]), *endorsers));
    for (uint32_t m = 0; m < MEMBERS; m++)
        if (m != author) must("accept", forgelilac_accept(ENGINE(&engines[m]), WORDS(certificate)));
}

static void commit(struct engine *e) {
    struct forgelilac_answer added = forgelilac_commit(ENGINE(e));
    if (added.refusal != FORGELILAC_NO_COMMIT_ROUND) must("commit", added.refusal);
}

/* On the way to the others' round a commit may find nothing to do yet (19 to 22), and nothing else. */
static void try_commit(struct engine *e) {
    uint32_t refusal = forgelilac_commit(ENGINE(e)).refusal;
    if (refusal < FORGELILAC_NO_COMMIT_ROUND || refusal > FORGELILAC_VOTES_SHORT) must("commit", refusal);
}

/* Prints the certificates of block k in a list, and gives where the next block begins. */
static const uint32_t *print_certificates(uint32_t k, const uint32_t *at, const uint32_t *end) {
    for (; at < end && at[FORGELILAC_LISTED_BLOCK] == k; at += FORGELILAC_LISTED_WORDS)
        printf(" %u/%u", (unsigned)at[FORGELILAC_LISTED_ROUND], (unsigned)at[FORGELILAC_LISTED_AUTHOR]);
    printf("\n");
    return at;
}

/* What would a commit do? The blocks before they are made, or why there would be none. */
static void print_preview(const struct engine *e) {
    static uint32_t list[FORGELILAC_PREVIEW_WORDS(CEILING)];
    struct forgelilac_answer listed = forgelilac_preview(ENGINE(e), WORDS(list));
    const uint32_t *at = list, *end = list + FORGELILAC_ENTRY_WORDS * listed.value;
    printf("what a commit of member %u in round %u would add\n", (unsigned)e->state[FORGELILAC_STATE_OWN],
           (unsigned)e->state[FORGELILAC_STATE_ROUND]);
    if (listed.refusal != FORGELILAC_ACCEPTED)
        printf("  nothing: refused with %u, %s\n", (unsigned)listed.refusal, forgelilac_refusal_text(listed.refusal));
    while (at < end) {
        printf("  block %u:", (unsigned)at[FORGELILAC_ENTRY_BLOCK]);
        at = print_certificates(at[FORGELILAC_ENTRY_BLOCK], at, end);
    }
}

/* Which computers must not be unplugged? The certificates that a commit hangs on, now that the one of
 * this author is there too. The table is lent for writing, so the engine is not const here. */
static void print_critical(struct engine *e, uint32_t author) {
    uint32_t list[FORGELILAC_CRITICAL_WORDS], round = e->state[FORGELILAC_STATE_ROUND];
    struct forgelilac_answer listed = forgelilac_critical(ENGINE(e), WORDS(list));
    const uint32_t *at = list, *end = list + FORGELILAC_PLACE_WORDS * listed.value;
    must("critical", listed.refusal);
    printf("with %u/%u a commit of member %u hangs on", (unsigned)round, (unsigned)author,
           (unsigned)e->state[FORGELILAC_STATE_OWN]);
    for (; at < end; at += FORGELILAC_PLACE_WORDS)
        printf(" %u/%u", (unsigned)at[FORGELILAC_PLACE_ROUND], (unsigned)at[FORGELILAC_PLACE_AUTHOR]);
    printf("\n");
}

/* Prints block k of a listed chain, and gives where the next one begins. */
static const uint32_t *print_block(const struct engine *e, uint32_t k, const uint32_t *at, const uint32_t *end) {
    struct forgelilac_answer round = forgelilac_block(ENGINE(e), k);
    must("block", round.refusal);
    printf("  block %u, block round %u:", (unsigned)k, (unsigned)round.value);
    return print_certificates(k, at, end);
}

static void print_chain(const struct engine *e) {
    static uint32_t list[FORGELILAC_CHAIN_WORDS(CEILING)];
    struct forgelilac_answer listed = forgelilac_chain(ENGINE(e), WORDS(list));
    const uint32_t *at = list, *end = list + FORGELILAC_LISTED_WORDS * listed.value;
    must("chain", listed.refusal);
    printf("member %u\n", (unsigned)e->state[FORGELILAC_STATE_OWN]);
    for (uint32_t k = 1; k <= e->state[FORGELILAC_STATE_BLOCKS]; k++) at = print_block(e, k, at, end);
}

/* Who endorsed what: the certificates of a round as a member holds them. */
static void print_endorsers(const struct engine *e, uint32_t round) {
    uint32_t out[FORGELILAC_HELD_WORDS];
    printf("endorsers in round %u, as member %u holds them\n", (unsigned)round,
           (unsigned)e->state[FORGELILAC_STATE_OWN]);
    for (uint32_t author = 0; author < FORGELILAC_MEMBERS; author++) {
        if (forgelilac_certificate(ENGINE(e), author, round, WORDS(out)) != 0) continue;
        printf("  %u/%u:", (unsigned)round, (unsigned)author);
        for (uint32_t m = 0; m < FORGELILAC_MEMBERS; m++)
            if (out[FORGELILAC_HELD_ENDORSERS] >> m & 1) printf(" %u", (unsigned)m);
        printf("\n");
    }
}

/* Before bonding: how far a bond would move everyone's share, of those that have one before or after it. */
static void print_effect(const struct engine *e, uint32_t member, uint32_t amount) {
    uint32_t out[FORGELILAC_EFFECT_WORDS], round = e->state[FORGELILAC_STATE_ROUND];
    const uint32_t *before = out + FORGELILAC_EFFECT_BEFORE, *after = out + FORGELILAC_EFFECT_AFTER;
    must("bond effect", forgelilac_bond_effect(ENGINE(e), member, round, amount, WORDS(out)));
    printf("how far a bond of member %u by %u would move the shares in round %u\n", (unsigned)member,
           (unsigned)amount, (unsigned)round);
    for (uint32_t m = 0; m < FORGELILAC_MEMBERS; m++)
        if (before[m] + after[m] > 0)
            printf("  member %u: from %u to %u\n", (unsigned)m, (unsigned)before[m], (unsigned)after[m]);
    printf("  largest difference: %u\n", (unsigned)out[FORGELILAC_EFFECT_LARGEST]);
}

/* What member 0 holds of rounds 3, 2 and 1, as a link delivers it: newest first. */
static void bundle(struct forgelilac_certificate row[BUNDLE]) {
    uint32_t out[FORGELILAC_HELD_WORDS];
    for (uint32_t round = 3; round >= 1; round--)
        for (uint32_t author = 0; author < MEMBERS; author++) {
            must("certificate", forgelilac_certificate(ENGINE(&engines[0]), author, round, WORDS(out)));
            *row++ = forgelilac_record_of(out);
        }
}

static void print_answers(const char *how, const uint32_t answers[BUNDLE]) {
    printf("  %s:", how);
    for (int i = 0; i < BUNDLE; i++) printf(" %u", (unsigned)answers[i]);
    printf("\n");
}

/* Goes on while the present round has a quorum. It proposes in every round on the way too: a real host gets that
 * certified before it goes on, so that each of its certificates is named by its next one and the last by others.
 * (This one has no weight, and is refused with 9.) It commits before it leaves an odd round from 3 on. A refused
 * commit does not stop it: a real host waits in its last chance (docs/HOSTS.md; examples/plant.c does all this). */
static void print_catching_up(struct engine *e) {
    const uint32_t *round = &e->state[FORGELILAC_STATE_ROUND];
    uint32_t refusal;
    do {
        refusal = propose(e);
        if (refusal != FORGELILAC_OUTSIDE) must("propose", refusal);
        if (*round >= 3 && *round % 2 == 1) try_commit(e);
        refusal = forgelilac_advance(ENGINE(e));
    } while (refusal == FORGELILAC_ACCEPTED);
    printf("    advances to round %u, then %u; blocks: %u\n", (unsigned)*round, (unsigned)refusal,
           (unsigned)e->state[FORGELILAC_STATE_BLOCKS]);
}

/* A member that was away gets the bundle: one by one, and, opened anew, in one batch. */
static void print_batch(void) {
    static struct engine away;
    struct forgelilac_certificate row[BUNDLE];
    uint32_t answers[BUNDLE];
    bundle(row);
    printf("rounds 3, 2, 1 to a member that was away\n");
    open_member(&away, MEMBERS);
    for (int i = 0; i < BUNDLE; i++)
        answers[i] = forgelilac_accept(ENGINE(&away), (const uint32_t *)&row[i], FORGELILAC_CERTIFICATE_WORDS);
    print_answers("one by one", answers);
    print_catching_up(&away);
    open_member(&away, MEMBERS);
    must("batch", forgelilac_batch(ENGINE(&away), row, BUNDLE, WORDS(answers)));
    print_answers("in one batch", answers);
    print_catching_up(&away);
}

static void add(struct engine *e, uint32_t guest, uint32_t number) {
    const uint32_t entry[FORGELILAC_TRANSACTION_WORDS] = {FORGELILAC_ENTRY, number, 0};
    must("enqueue", forgelilac_enqueue(ENGINE(e), guest, WORDS(entry)));
}

/* What the member proposes in this round: the entries of its own proposal. */
static void print_drawn(const struct engine *e) {
    uint32_t proposal[FORGELILAC_PROPOSAL_WORDS];
    const uint32_t *body = proposal + FORGELILAC_PROPOSAL_BODY;
    if (!forgelilac_own_proposal(e->state, proposal)) return;
    printf("  round %u:", (unsigned)proposal[FORGELILAC_PROPOSAL_ROUND]);
    for (uint32_t k = 0; k < body[FORGELILAC_BODY_COUNT]; k++)
        printf(" %u", (unsigned)body[FORGELILAC_BODY_TRANSACTIONS + FORGELILAC_TRANSACTION_WORDS * k + 1]);
    printf("; wait:");
    for (uint32_t guest = 0; guest < FORGELILAC_GUESTS; guest++)
        printf(" %u", (unsigned)forgelilac_waiting(e->table, guest));
    printf("\n");
}

/* Guests of a computer that is alone share its proposals. Guest 2 is busy and fills its queue before
 * each; guests 5 and 0 have something now and then. An entry tells its guest. */
static void print_queues(void) {
    static struct engine e;
    uint32_t next = 100 * BUSY;
    open_alone(&e, FORGELILAC_NO_RIGHTS);
    printf("guests share the proposals of a member alone\n");
    for (uint32_t round = 1; round <= 4; round++) {
        while (forgelilac_waiting(e.table, BUSY) < FORGELILAC_QUEUE_PLACES) add(&e, BUSY, next++);
        if (round == 1) add(&e, 5, 500);
        if (round == 1) add(&e, 5, 501);
        if (round == 2) add(&e, 0, 0);
        must("draw", forgelilac_draw(ENGINE(&e), held(&e, round - 1)));
        print_drawn(&e);
        must("certify", forgelilac_certify(ENGINE(&e), 0));
        must("advance", forgelilac_advance(ENGINE(&e)));
    }
}

static void print_answer(uint32_t guest, const char *call, uint32_t answer) {
    printf(", guest %u %s %u", (unsigned)guest, call, (unsigned)answer);
}

/* Of a guest's commit: how many blocks it adds, or why it adds none. */
static void print_commit(struct engine *e, uint32_t guest) {
    struct forgelilac_answer added = forgelilac_guest_commit(guest, ENGINE(e));
    printf("  guest %u commit: ", (unsigned)guest);
    if (added.refusal == FORGELILAC_ACCEPTED) printf("blocks added %u\n", (unsigned)added.value);
    else printf("refused with %u, %s\n", (unsigned)added.refusal, forgelilac_refusal_text(added.refusal));
}

/* The chain as a guest reads it, or why it may not. */
static void print_read(const struct engine *e, uint32_t guest) {
    static uint32_t list[FORGELILAC_CHAIN_WORDS(CEILING)];
    struct forgelilac_answer listed = forgelilac_guest_chain(guest, ENGINE(e), WORDS(list));
    printf("  guest %u chain:", (unsigned)guest);
    if (listed.refusal == FORGELILAC_ACCEPTED)
        print_certificates(1, list, list + FORGELILAC_LISTED_WORDS * listed.value);
    else printf(" refused with %u, %s\n", (unsigned)listed.refusal, forgelilac_refusal_text(listed.refusal));
}

/* Guests of a computer that is alone call by themselves: one may propose and read, one may drive, and
 * the host signs. A hypervisor passes the number of the guest that was running, which it knows itself. */
static void print_guests(void) {
    static struct engine e;
    const uint32_t entry[FORGELILAC_TRANSACTION_WORDS] = {FORGELILAC_ENTRY, 100 * LINE, 0};
    open_alone(&e, FORGELILAC_RIGHTS(1 << LINE, 0, 1 << CLOCK, 1 << LINE));
    printf("guests call by themselves: %d may propose and read, %d may drive\n", LINE, CLOCK);
    for (uint32_t round = 1; round <= 3; round++) {
        printf("  round %u", (unsigned)round);
        print_answer(LINE, "enqueue", forgelilac_guest_enqueue(LINE, ENGINE(&e), WORDS(entry)));
        print_answer(CLOCK, "enqueue", forgelilac_guest_enqueue(CLOCK, ENGINE(&e), WORDS(entry)));
        print_answer(LINE, "draw", forgelilac_guest_draw(LINE, ENGINE(&e), held(&e, round - 1)));
        must("certify", forgelilac_certify(ENGINE(&e), 0));
        if (round < 3) print_answer(LINE, "advance", forgelilac_guest_advance(LINE, ENGINE(&e)));
        if (round < 3) print_answer(CLOCK, "advance", forgelilac_guest_advance(CLOCK, ENGINE(&e)));
        printf("\n");
    }
    print_commit(&e, LINE);
    print_commit(&e, FORGELILAC_GUESTS);
    print_commit(&e, CLOCK);
    print_read(&e, LINE);
    print_read(&e, CLOCK);
}

static void print_end(void) {
    for (uint32_t m = 0; m < MEMBERS; m++) print_chain(&engines[m]);
    print_endorsers(&engines[0], LAST_ROUND);
    printf("shares in round %d, in thousandths: [", LAST_ROUND);
    for (uint32_t m = 0; m < MEMBERS; m++) {
        struct forgelilac_answer share = forgelilac_share(ENGINE(&engines[0]), m, LAST_ROUND);
        must("share", share.refusal);
        printf("%s%u", m == 0 ? "" : ", ", (unsigned)share.value);
    }
    printf("]\n");
    print_effect(&engines[0], 3, 11);
    print_batch();
    print_queues();
    print_guests();
}

int main(void) {
    printf("certificates as round/author\n");
    for (uint32_t m = 0; m < MEMBERS; m++) open_member(&engines[m], m);
    for (int round = 1; round <= LAST_ROUND; round++) {
        for (uint32_t m = 0; m < MEMBERS; m++) {
            circulate(m);
            if (round == LAST_ROUND) print_critical(&engines[0], m);
        }
        if (round + 1 >= LAST_ROUND) print_preview(&engines[0]);
        for (uint32_t m = 0; m < MEMBERS; m++) {
            commit(&engines[m]);
            if (round < LAST_ROUND) must("advance", forgelilac_advance(ENGINE(&engines[m])));
        }
    }
    print_end();
    return 0;
}
