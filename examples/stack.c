/* How much stack the calls need: a run to the ceiling, each call in a thread of its own whose
 * stack was painted before; what is no longer painted was used. Then the same run by a guest who may
 * do everything, with accesses to its port; and both again by owner's calls. Prints the most of each call, as the
 * host's and as a guest's, then as an owner's; status 1 where one used more than FORGELILAC_STACK_BYTES, or an
 * owner's more than FORGELILAC_OWNED_STACK_BYTES. */
#define _POSIX_C_SOURCE 200809L
#include <pthread.h>
#include <stdio.h>
#include <stdlib.h>
#include <string.h>

#include "forgelilac.h"

enum { CEILING = 64, MEMBERS = 4, ALL = (1 << MEMBERS) - 1, STACK = 1 << 20, PAINT = 0xa5 };
enum { CALLER = 7, ME = 1 << CALLER };
enum by { HOST, GUEST, OWNER, OWNERS_GUEST, FORMS };
enum call { NOTHING, OPEN, PROPOSE, ENQUEUE, DRAW, ENDORSE, CERTIFY, ACCEPT, BATCH, ADVANCE, COMMIT,
            PREVIEW, CRITICAL, COMMITTEE, SHARE, EFFECT, CERTIFICATE, BLOCK, ROWS, CHAIN, PORT_READ,
            PORT_WRITE, PORT_RESET, RESUME, CALLS };
static const char *const names[CALLS] = {"", "open", "propose", "enqueue", "draw", "endorse", "certify", "accept",
                                         "batch", "advance", "commit", "preview", "critical", "committee", "share",
                                         "bond effect", "certificate", "block", "block rows", "chain",
                                         "port read", "port write", "port reset", "resume"};

static uint32_t state[FORGELILAC_STATE_WORDS], table[FORGELILAC_TABLE_WORDS(CEILING)];
static uint64_t kept[FORGELILAC_KEPT_WORDS(CEILING)];
static uint32_t words[FORGELILAC_SHEET_WORDS], out[FORGELILAC_EFFECT_WORDS];
static uint32_t list[FORGELILAC_CHAIN_WORDS(CEILING)], entries[FORGELILAC_PREVIEW_WORDS(CEILING)];
static uint32_t places[FORGELILAC_CRITICAL_WORDS], rows[FORGELILAC_ROWS_WORDS(CEILING)];
static struct forgelilac_certificate row[FORGELILAC_BATCH_RECORDS];
static uint32_t answers[FORGELILAC_BATCH_RECORDS];
static unsigned char *stack;
static size_t used[FORMS][CALLS];
static enum by by;

#define ENGINE state, sizeof state / 4, table, sizeof table / 4
#define OWNED ENGINE, kept, sizeof kept / 8
#define WORDS words, sizeof words / 4
#define OUT out, sizeof out / 4
#define ROW row, FORGELILAC_BATCH_RECORDS, answers, FORGELILAC_BATCH_RECORDS
#define ALL_BLOCKS 0, state[FORGELILAC_STATE_BLOCKS], rows, sizeof rows / 4

static uint64_t high(uint32_t refusal) { return (uint64_t)refusal << 32; }

/* The host's own call, with its numbers at the start of words. The caller gets every right. There is none
 * of an access to a port. */
static uint64_t make(enum call call) {
    switch (call) {
    case OPEN: return high(forgelilac_open(ENGINE, 0, WORDS, FORGELILAC_RIGHTS(ME, ME, ME, ME)));
    case PROPOSE: return high(forgelilac_propose(ENGINE, WORDS));
    case ENQUEUE: return high(forgelilac_enqueue(ENGINE, words[3] % FORGELILAC_GUESTS, WORDS));
    case DRAW: return high(forgelilac_draw(ENGINE, words[0]));
    case ENDORSE: return high(forgelilac_endorse(ENGINE, WORDS));
    case CERTIFY: return high(forgelilac_certify(ENGINE, words[0]));
    case ACCEPT: return high(forgelilac_accept(ENGINE, WORDS));
    case BATCH: return high(forgelilac_batch(ENGINE, ROW));
    case ADVANCE: return high(forgelilac_advance(ENGINE));
    case COMMIT: return forgelilac_commit(ENGINE);
    case PREVIEW: return forgelilac_preview(ENGINE, entries, sizeof entries / 4);
    case CRITICAL: return forgelilac_critical(ENGINE, places, sizeof places / 4);
    case COMMITTEE: return high(forgelilac_committee(ENGINE, words[0], OUT));
    case SHARE: return forgelilac_share(ENGINE, words[0], words[1]);
    case EFFECT: return high(forgelilac_bond_effect(ENGINE, words[0], words[1], words[2], OUT));
    case CERTIFICATE: return high(forgelilac_certificate(ENGINE, words[0], words[1], OUT));
    case BLOCK: return forgelilac_block(ENGINE, words[0]);
    case ROWS: return forgelilac_block_rows(ENGINE, ALL_BLOCKS);
    case CHAIN: return forgelilac_chain(ENGINE, list, sizeof list / 4);
    case PORT_RESET: return high(forgelilac_port_reset(ENGINE, words[0]));
    default: return 0;
    }
}

/* The guest's form of the call; there is none of open and of port reset. */
static uint64_t make_by_guest(enum call call) {
    switch (call) {
    case PROPOSE: return high(forgelilac_guest_propose(CALLER, ENGINE, WORDS));
    case ENQUEUE: return high(forgelilac_guest_enqueue(CALLER, ENGINE, WORDS));
    case DRAW: return high(forgelilac_guest_draw(CALLER, ENGINE, words[0]));
    case ENDORSE: return high(forgelilac_guest_endorse(CALLER, ENGINE, WORDS));
    case CERTIFY: return high(forgelilac_guest_certify(CALLER, ENGINE, words[0]));
    case ACCEPT: return high(forgelilac_guest_accept(CALLER, ENGINE, WORDS));
    case BATCH: return high(forgelilac_guest_batch(CALLER, ENGINE, ROW));
    case ADVANCE: return high(forgelilac_guest_advance(CALLER, ENGINE));
    case COMMIT: return forgelilac_guest_commit(CALLER, ENGINE);
    case PREVIEW: return forgelilac_guest_preview(CALLER, ENGINE, entries, sizeof entries / 4);
    case CRITICAL: return forgelilac_guest_critical(CALLER, ENGINE, places, sizeof places / 4);
    case COMMITTEE: return high(forgelilac_guest_committee(CALLER, ENGINE, words[0], OUT));
    case SHARE: return forgelilac_guest_share(CALLER, ENGINE, words[0], words[1]);
    case EFFECT: return high(forgelilac_guest_bond_effect(CALLER, ENGINE, words[0], words[1], words[2], OUT));
    case CERTIFICATE: return high(forgelilac_guest_certificate(CALLER, ENGINE, words[0], words[1], OUT));
    case BLOCK: return forgelilac_guest_block(CALLER, ENGINE, words[0]);
    case ROWS: return forgelilac_guest_block_rows(CALLER, ENGINE, ALL_BLOCKS);
    case CHAIN: return forgelilac_guest_chain(CALLER, ENGINE, list, sizeof list / 4);
    case PORT_READ: return forgelilac_guest_port_read(CALLER, ENGINE, words[0]);
    case PORT_WRITE: return high(forgelilac_guest_port_write(CALLER, ENGINE, words[0], (uint8_t)words[1]));
    default: return make(call);
    }
}

/* The same as an owner's; an open is anybody's, and a resume follows it. */
static uint64_t make_owned(enum call call) {
    switch (call) {
    case OPEN: return high(forgelilac_open(ENGINE, 0, WORDS, FORGELILAC_RIGHTS(ME, ME, ME, ME)));
    case PROPOSE: return high(forgelilac_owned_propose(OWNED, WORDS));
    case ENQUEUE: return high(forgelilac_owned_enqueue(OWNED, words[3] % FORGELILAC_GUESTS, WORDS));
    case DRAW: return high(forgelilac_owned_draw(OWNED, words[0]));
    case ENDORSE: return high(forgelilac_owned_endorse(OWNED, WORDS));
    case CERTIFY: return high(forgelilac_owned_certify(OWNED, words[0]));
    case ACCEPT: return high(forgelilac_owned_accept(OWNED, WORDS));
    case BATCH: return high(forgelilac_owned_batch(OWNED, ROW));
    case ADVANCE: return high(forgelilac_owned_advance(OWNED));
    case COMMIT: return forgelilac_owned_commit(OWNED);
    case PREVIEW: return forgelilac_owned_preview(OWNED, entries, sizeof entries / 4);
    case CRITICAL: return forgelilac_owned_critical(OWNED, places, sizeof places / 4);
    case COMMITTEE: return high(forgelilac_owned_committee(OWNED, words[0], OUT));
    case SHARE: return forgelilac_owned_share(OWNED, words[0], words[1]);
    case EFFECT: return high(forgelilac_owned_bond_effect(OWNED, words[0], words[1], words[2], OUT));
    case CERTIFICATE: return high(forgelilac_owned_certificate(OWNED, words[0], words[1], OUT));
    case BLOCK: return forgelilac_owned_block(OWNED, words[0]);
    case ROWS: return forgelilac_owned_block_rows(OWNED, ALL_BLOCKS);
    case CHAIN: return forgelilac_owned_chain(OWNED, list, sizeof list / 4);
    case PORT_RESET: return high(forgelilac_owned_port_reset(OWNED, words[0]));
    case RESUME: return high(forgelilac_owned_resume(OWNED));
    default: return 0;
    }
}

/* The guest's form of that. */
static uint64_t make_owned_by_guest(enum call call) {
    switch (call) {
    case PROPOSE: return high(forgelilac_owned_guest_propose(CALLER, OWNED, WORDS));
    case ENQUEUE: return high(forgelilac_owned_guest_enqueue(CALLER, OWNED, WORDS));
    case DRAW: return high(forgelilac_owned_guest_draw(CALLER, OWNED, words[0]));
    case ENDORSE: return high(forgelilac_owned_guest_endorse(CALLER, OWNED, WORDS));
    case CERTIFY: return high(forgelilac_owned_guest_certify(CALLER, OWNED, words[0]));
    case ACCEPT: return high(forgelilac_owned_guest_accept(CALLER, OWNED, WORDS));
    case BATCH: return high(forgelilac_owned_guest_batch(CALLER, OWNED, ROW));
    case ADVANCE: return high(forgelilac_owned_guest_advance(CALLER, OWNED));
    case COMMIT: return forgelilac_owned_guest_commit(CALLER, OWNED);
    case PREVIEW: return forgelilac_owned_guest_preview(CALLER, OWNED, entries, sizeof entries / 4);
    case CRITICAL: return forgelilac_owned_guest_critical(CALLER, OWNED, places, sizeof places / 4);
    case COMMITTEE: return high(forgelilac_owned_guest_committee(CALLER, OWNED, words[0], OUT));
    case SHARE: return forgelilac_owned_guest_share(CALLER, OWNED, words[0], words[1]);
    case EFFECT: return high(forgelilac_owned_guest_bond_effect(CALLER, OWNED, words[0], words[1], words[2], OUT));
    case CERTIFICATE: return high(forgelilac_owned_guest_certificate(CALLER, OWNED, words[0], words[1], OUT));
    case BLOCK: return forgelilac_owned_guest_block(CALLER, OWNED, words[0]);
    case ROWS: return forgelilac_owned_guest_block_rows(CALLER, OWNED, ALL_BLOCKS);
    case CHAIN: return forgelilac_owned_guest_chain(CALLER, OWNED, list, sizeof list / 4);
    case PORT_READ: return forgelilac_owned_guest_port_read(CALLER, OWNED, words[0]);
    case PORT_WRITE: return high(forgelilac_owned_guest_port_write(CALLER, OWNED, words[0], (uint8_t)words[1]));
    default: return make_owned(call);
    }
}

struct job { enum call call; uint64_t answer; };

static void *work(void *argument) {
    struct job *job = argument;
    static uint64_t (*const makes[FORMS])(enum call) = {make, make_by_guest, make_owned, make_owned_by_guest};
    job->answer = makes[by](job->call);
    return NULL;
}

/* Makes a call that must be accepted, on a painted stack. */
static void measure(enum call call) {
    struct job job = {call, 0};
    pthread_attr_t attributes;
    pthread_t thread;
    size_t clean = 0;
    memset(stack, PAINT, STACK);
    pthread_attr_init(&attributes);
    pthread_attr_setstack(&attributes, stack, STACK);
    if (pthread_create(&thread, &attributes, work, &job) != 0) abort();
    pthread_join(thread, NULL);
    while (clean < STACK && stack[clean] == PAINT) clean++;
    if (STACK - clean > used[by][call]) used[by][call] = STACK - clean;
    if (forgelilac_refusal_of(job.answer) == FORGELILAC_ACCEPTED) return;
    fprintf(stderr, "%s refused with %u\n", names[call], (unsigned)forgelilac_refusal_of(job.answer));
    exit(1);
}

static void body(uint32_t *at, uint32_t round, uint32_t author) {
    forgelilac_begin_body(at, round == 1 ? 0 : ALL);
    forgelilac_add_entry(at, round);
    if (round % 5 == author) forgelilac_add_bond(at, author, 3);
}

/* Four guests add an entry each, for the draw of the next round. */
static void add(uint32_t round) {
    for (uint32_t k = 0; k < FORGELILAC_TRANSACTIONS; k++) {
        words[0] = FORGELILAC_ENTRY;
        words[1] = round;
        words[2] = 0;
        words[3] = round + 3 * k;
        measure(ENQUEUE);
    }
}

static void sign(uint32_t round) {
    body(words, round, 0);
    if (round % 2 == 1) measure(PROPOSE);
    if (round % 2 == 1) add(round);
    words[0] = ALL;
    if (round % 2 == 0) measure(DRAW);
    words[0] = ALL & ~1u;
    measure(CERTIFY);
    for (uint32_t author = 1; author < MEMBERS; author++) {
        words[FORGELILAC_PROPOSAL_AUTHOR] = author;
        words[FORGELILAC_PROPOSAL_ROUND] = round;
        body(words + FORGELILAC_PROPOSAL_BODY, round, author);
        words[FORGELILAC_CERTIFICATE_ENDORSERS] = ALL & ~(1u << author);
        measure(ENDORSE);
        row[author] = forgelilac_record_of(words);
        if (round % 2 == 1) measure(ACCEPT);
    }
    /* Every other round comes by the batch; the rest of the row are copies. */
    for (int i = MEMBERS; i < FORGELILAC_BATCH_RECORDS; i++) row[i] = row[i - 1];
    row[0] = row[1];
    if (round % 2 == 0) measure(BATCH);
}

/* What a commit hangs on: as a run leaves the state, and with a vote that is in block 1 already, as no
 * run has it; that one is tried with its bit cleared, which takes more. */
static void hang(uint32_t round) {
    uint32_t *mark = table + FORGELILAC_RECORD(1, round) + FORGELILAC_RECORD_BLOCK;
    measure(CRITICAL);
    if (by >= OWNER) return;                            /* nothing else writes owned words */
    *mark = state[FORGELILAC_STATE_BLOCKS] > 0;
    measure(CRITICAL);
    *mark = 0;
}

static void look(uint32_t round) {
    words[0] = round;
    measure(COMMITTEE);
    words[0] = 1;
    words[1] = round;
    measure(SHARE);
    words[2] = 1000;
    measure(EFFECT);
    measure(CERTIFICATE);
    if (state[FORGELILAC_STATE_BLOCKS] > 0) measure(BLOCK);
    measure(ROWS);
    measure(CHAIN);
}

/* Accesses to the caller's port: inside lines and at their ends, and where nothing waits; and resets. */
static void access_port(uint32_t round) {
    words[0] = CALLER;
    if (round % 16 == 0) measure(PORT_RESET);
    if (by == HOST || by == OWNER || round % 4 != 3) return;
    words[0] = FORGELILAC_OFFSET_DATA;
    for (int k = 0; k < 50; k++) measure(PORT_READ);
    words[0] = FORGELILAC_OFFSET_STATUS;
    measure(PORT_READ);
    words[0] = FORGELILAC_OFFSET_SCRATCH;
    words[1] = round;
    measure(PORT_WRITE);
}

/* A run from an opening to the ceiling. */
static void run(void) {
    measure(NOTHING);
    forgelilac_blank_sheet(words);
    forgelilac_write_setting(words, FORGELILAC_LOOKBACK, 4);
    forgelilac_write_setting(words, FORGELILAC_CEILING, CEILING);
    measure(OPEN);
    if (by >= OWNER) measure(RESUME);
    for (uint32_t round = 1; round <= CEILING; round++) {
        sign(round);
        if (round % 2 == 1 && round > 1) measure(PREVIEW);
        if (round % 2 == 1 && round > 1) hang(round);
        if (round % 2 == 1 && round > 1) measure(COMMIT);
        look(round);
        access_port(round);
        if (round < CEILING) measure(ADVANCE);
    }
}

int main(void) {
    size_t most[FORMS] = {0};
    stack = aligned_alloc(4096, STACK);
    if (stack == NULL) abort();
    for (by = HOST; by < FORMS; by++) run();
    for (int call = OPEN; call < CALLS; call++) {
        size_t bytes[FORMS];
        for (int i = HOST; i < FORMS; i++) {
            bytes[i] = used[i][call] > 0 ? used[i][call] - used[i][NOTHING] : 0;
            if (bytes[i] > most[i]) most[i] = bytes[i];
        }
        if (call == PORT_READ || call == PORT_WRITE)
            printf("%-12s%8zu bytes of stack, an owner's %zu, as a guest's alone\n", names[call], bytes[GUEST],
                   bytes[OWNERS_GUEST]);
        else if (call == OPEN) printf("%-12s%8zu bytes of stack\n", names[call], bytes[HOST]);
        else if (call == RESUME) printf("%-12s%8zu bytes of stack, an owner's alone\n", names[call], bytes[OWNER]);
        else if (call == PORT_RESET)
            printf("%-12s%8zu bytes of stack, an owner's %zu\n", names[call], bytes[HOST], bytes[OWNER]);
        else printf("%-12s%8zu bytes of stack, an owner's %zu; as a guest's %zu and %zu\n", names[call], bytes[HOST],
                    bytes[OWNER], bytes[GUEST], bytes[OWNERS_GUEST]);
    }
    printf("%-12s%8d bytes serve every call, an owner's %d\n", "", FORGELILAC_STACK_BYTES, FORGELILAC_OWNED_STACK_BYTES);
    return most[HOST] > FORGELILAC_STACK_BYTES || most[GUEST] > FORGELILAC_STACK_BYTES
           || most[OWNER] > FORGELILAC_OWNED_STACK_BYTES || most[OWNERS_GUEST] > FORGELILAC_OWNED_STACK_BYTES;
}
