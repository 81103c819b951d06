/* A whole host in C: four members in one process, with messages, signatures and stores. Links lose messages, and
 * member 1 is switched off for a while, in the middle of a store. It goes on from the store before, catches up, and what
 * its guest sent comes into blocks. docs/HOSTS.md, "A round, from the host's side", has each step. Not real are the
 * signatures, sums with a key that everybody knows; the disks, which are memory; and the clock, which counts turns. */
#include <stdio.h>
#include <stdlib.h>
#include <string.h>

#include "forgelilac.h"

enum { MEMBERS = 4, CEILING = 64, LAST_ROUND = 31, GUEST = 3, ENTRIES = 15, OFF_IN = 7, BOX = 256 };
enum { PATIENCE = 8, AGAIN = 3, OFF_FOR = 20 };         /* in turns */

typedef uint64_t signature;                             /* 0 for none */

/* What is stored: the words of the engine, and the signatures that may be sent again. */
struct kept {
    uint64_t format, count;
    signature held[CEILING + 1][MEMBERS][MEMBERS];      /* of each certificate, and of one's own proposal */
    signature endorsed[CEILING + 1][MEMBERS];           /* one's own under others' proposals, and which these are */
    uint32_t proposals[CEILING + 1][MEMBERS][FORGELILAC_PROPOSAL_WORDS];
    uint32_t state[FORGELILAC_STATE_WORDS], table[FORGELILAC_TABLE_WORDS(CEILING)];
    uint64_t sum;                                       /* over all that stands before it */
};

enum kind { PROPOSAL, ENDORSEMENT, CERTIFICATE, ASK };
struct message {                                        /* the link tells who it is from */
    enum kind kind;
    uint32_t from, words[FORGELILAC_CERTIFICATE_WORDS]; /* of ASK a round; of an endorsement those of its proposal */
    signature by[MEMBERS];
};

struct member {
    uint32_t own;
    struct kept kept;
    uint32_t endorsers, waited;                         /* of the present round, and not stored */
    uint32_t lowest, sent, off_until;                   /* round to ask from, entries of the guest, turn to go on in */
    struct message box[BOX];
    size_t arrived;
};

static struct member members[MEMBERS];
static struct kept disks[MEMBERS][2];                   /* two places in turns, */
static uint64_t done[MEMBERS];                          /* and the count of the store that was done last */
static uint32_t plant[FORGELILAC_STATE_WORDS];          /* its settings, as a state has them */

/* A pointer and its length, as the calls take them. */
#define WORDS(array) (array), sizeof(array) / sizeof(uint32_t)
#define ENGINE(m) WORDS((m)->kept.state), WORDS((m)->kept.table)

static void must(int holds, const char *what) {
    if (holds) return;
    fprintf(stderr, "not so: %s\n", what);
    exit(1);
}

static uint32_t round_of(const struct member *m) { return m->kept.state[FORGELILAC_STATE_ROUND]; }

/* The authors whose certificates of a round are held. Row 0 belongs to no round, and there is none above the ceiling's. */
static uint32_t held(const struct member *m, uint32_t round) {
    return round == 0 || round > CEILING ? 0 : m->kept.table[FORGELILAC_ROW(round) + FORGELILAC_ROW_HELD];
}

/* ---- signatures and stores */
static uint64_t sum(const void *bytes, size_t count, uint64_t key) {
    const uint8_t *at = (const uint8_t *)bytes;
    uint64_t hash = 0xcbf29ce484222325u ^ key;
    while (count-- > 0) hash = (hash ^ *at++) * 0x100000001b3u;
    return hash;
}

/* Under the bytes of docs/HOSTS.md, "What is signed, to the byte"; the run is 1. */
static signature sign(uint32_t member, const char *kind, const uint32_t proposal[FORGELILAC_PROPOSAL_WORDS]) {
    uint8_t bytes[36 + 4 * FORGELILAC_PROPOSAL_WORDS] = {0};
    memcpy(bytes, kind, 4);
    bytes[35] = 1;
    for (size_t i = 0; i < 4 * FORGELILAC_PROPOSAL_WORDS; i++) bytes[36 + i] = (uint8_t)(proposal[i / 4] >> 8 * (i % 4));
    return sum(bytes, sizeof bytes, member + 1) | 1;
}

/* Stores all of it; only then may a signature leave. */
static void store(struct member *m) {
    m->kept.count++;
    m->kept.sum = sum(&m->kept, offsetof(struct kept, sum), 0);
    memcpy(&disks[m->own][m->kept.count % 2], &m->kept, sizeof m->kept);
    done[m->own] = m->kept.count;
}

/* From the store that was done last, and from no other: without it the member signs nothing more in this run. */
static void go_on(struct member *m) {
    const struct kept *last = &disks[m->own][done[m->own] % 2];
    const uint32_t *state = last->state;
    must(last->sum == sum(last, offsetof(struct kept, sum), 0) && last->count == done[m->own], "the last store is whole");
    must(last->format == FORGELILAC_FORMAT && forgelilac_is_well_formed(WORDS(last->state), WORDS(last->table)), "it reads");
    must(state[FORGELILAC_STATE_OWN] == m->own && state[FORGELILAC_STATE_MARGIN] == plant[FORGELILAC_STATE_MARGIN]
         && memcmp(state + 1, plant + 1, 19 * sizeof *state) == 0, "it is this member's, with the plant's settings");
    memcpy(&m->kept, last, sizeof m->kept);
    m->off_until = 0;
    printf("member %u goes on in round %u\n", (unsigned)m->own, (unsigned)round_of(m));
}

/* The member forgets all but its disk, and the store that it was writing is spoilt. */
static void switch_off(struct member *m, uint32_t until) {
    printf("member %u is switched off in round %u\n", (unsigned)m->own, (unsigned)round_of(m));
    memset(disks[m->own][(done[m->own] + 1) % 2].table, 0x5a, sizeof m->kept.table / 2);
    memset(&m->kept, 0, sizeof m->kept);
    m->endorsers = m->waited = m->arrived = 0;
    m->off_until = until;
}

/* ---- sending. To a member, to all others where `to` is none. Links lose one message in eight. */
static void post(const struct member *m, uint32_t to, enum kind kind, const uint32_t *words, const signature *by) {
    static uint32_t dice;
    for (struct member *other = members; other < members + MEMBERS; other++) {
        if (other == m || (to < MEMBERS && other->own != to)) continue;
        dice = dice * 1664525u + 1013904223u;
        if (dice >> 29 == 0 || other->off_until > 0 || other->arrived == BOX) continue;
        struct message *one = &other->box[other->arrived++];
        one->kind = kind;
        one->from = m->own;
        memcpy(one->words, words, sizeof one->words);
        memcpy(one->by, by, sizeof one->by);
    }
}

/* One's own certificate of the present round, or the proposal where there is none yet. */
static void send_own(const struct member *m) {
    uint32_t words[FORGELILAC_HELD_WORDS] = {0}, round = round_of(m);
    int mine = forgelilac_certificate(ENGINE(m), m->own, round, WORDS(words)) == 0;
    if (mine || forgelilac_own_proposal(m->kept.state, words))
        post(m, MEMBERS, mine ? CERTIFICATE : PROPOSAL, words, m->kept.held[round][m->own]);
}

/* ---- taking in. What is refused with 8 or 11 is not kept here: it comes again, and what it names is asked for. */
static uint32_t take_proposal(struct member *m, const struct message *one, uint32_t author, uint32_t round) {
    const size_t bytes = FORGELILAC_PROPOSAL_WORDS * sizeof(uint32_t);
    uint32_t answer = forgelilac_endorse(ENGINE(m), one->words, FORGELILAC_PROPOSAL_WORDS);
    if (answer == 0) {
        memcpy(m->kept.proposals[round][author], one->words, bytes);
        m->kept.endorsed[round][author] = sign(m->own, "FLE1", one->words);
        store(m);
    }
    /* After 10 too: the stored signature again, for that proposal alone. */
    if (m->kept.endorsed[round][author] != 0 && memcmp(m->kept.proposals[round][author], one->words, bytes) == 0) {
        signature by[MEMBERS] = {0};
        by[m->own] = m->kept.endorsed[round][author];
        post(m, author, ENDORSEMENT, one->words, by);
    }
    return answer;
}

static void take_endorsement(struct member *m, const struct message *one) {
    uint32_t words[FORGELILAC_PROPOSAL_WORDS];
    if (!forgelilac_own_proposal(m->kept.state, words) || memcmp(words, one->words, sizeof words) != 0) return;
    if (one->by[one->from] != sign(one->from, "FLE1", words)) return;
    m->endorsers |= UINT32_C(1) << one->from;
    m->kept.held[round_of(m)][m->own][one->from] = one->by[one->from];
    if (forgelilac_certify(ENGINE(m), m->endorsers) == 0) send_own(m);          /* 13: not enough yet */
}

static uint32_t take_certificate(struct member *m, const struct message *one, uint32_t author, uint32_t round) {
    uint32_t endorsers = one->words[FORGELILAC_CERTIFICATE_ENDORSERS], answer;
    if (endorsers >> MEMBERS != 0) return FORGELILAC_OUTSIDE;
    for (uint32_t i = 0; i < MEMBERS; i++)
        if (endorsers >> i & 1 && one->by[i] != sign(i, "FLE1", one->words)) return FORGELILAC_SIGNERS_SHORT;
    answer = forgelilac_accept(ENGINE(m), one->words, FORGELILAC_CERTIFICATE_WORDS);
    if (answer == 0) memcpy(m->kept.held[round][author], one->by, sizeof one->by);
    return answer;
}

/* Certificates of a round and of three more, the oldest first. */
static void answer_question(const struct member *m, uint32_t to, uint32_t first) {
    uint32_t words[FORGELILAC_HELD_WORDS];
    for (uint32_t round = first; round <= CEILING && round - first < 4; round++)
        for (uint32_t author = 0; author < MEMBERS; author++)
            if (forgelilac_certificate(ENGINE(m), author, round, WORDS(words)) == 0)
                post(m, to, CERTIFICATE, words, m->kept.held[round][author]);
}

static void take(struct member *m, struct message *one) {
    uint32_t author = one->words[FORGELILAC_PROPOSAL_AUTHOR], round = one->words[FORGELILAC_PROPOSAL_ROUND];
    uint32_t *body = one->words + FORGELILAC_PROPOSAL_BODY, count = body[FORGELILAC_BODY_COUNT];
    if (one->kind == ASK) answer_question(m, one->from, one->words[0]);
    if (one->kind == ASK || author >= MEMBERS || round == 0 || round > CEILING || count > FORGELILAC_TRANSACTIONS) return;
    for (size_t i = FORGELILAC_BODY_TRANSACTIONS + 3 * (size_t)count; i < FORGELILAC_BODY_WORDS; i++)
        body[i] = 0;                                    /* no part of the proposal: the engine does not look at them */
    if (one->kind == ENDORSEMENT) take_endorsement(m, one);
    if (one->kind == ENDORSEMENT || one->by[author] != sign(author, "FLP1", one->words)) return;
    uint32_t answer = one->kind == PROPOSAL ? take_proposal(m, one, author, round) : take_certificate(m, one, author, round);
    if (answer == FORGELILAC_PREVIOUS_MISSING && round - 1 < m->lowest) m->lowest = round - 1;
}

/* ---- a round. What the newest blocks hold goes to the guests; that of member 0 prints the entries. */
static void hand_over(const struct member *m, uint32_t added) {
    static uint32_t rows[FORGELILAC_ROWS_WORDS(CEILING)];
    uint64_t answer = forgelilac_block_rows(ENGINE(m), m->kept.state[FORGELILAC_STATE_BLOCKS] - added, added, WORDS(rows));
    must(forgelilac_refusal_of(answer) == 0, "the blocks are there");
    const uint32_t *end = rows + FORGELILAC_HELD_WORDS * forgelilac_value_of(answer);
    for (const uint32_t *row = rows; row < end && m->own == 0; row += FORGELILAC_HELD_WORDS) {
        const uint32_t *body = row + FORGELILAC_PROPOSAL_BODY, *at = body + FORGELILAC_BODY_TRANSACTIONS;
        for (uint32_t k = 0; k < body[FORGELILAC_BODY_COUNT]; k++, at += FORGELILAC_TRANSACTION_WORDS)
            printf("block %u, %u/%u: entry %u\n", (unsigned)row[FORGELILAC_HELD_BLOCK],
                   (unsigned)row[FORGELILAC_PROPOSAL_ROUND], (unsigned)row[FORGELILAC_PROPOSAL_AUTHOR], (unsigned)at[1]);
    }
}

/* Names all that is held of the round before. */
static void propose(struct member *m, uint32_t round) {
    uint32_t words[FORGELILAC_PROPOSAL_WORDS];
    if (forgelilac_draw(ENGINE(m), held(m, round - 1)) != 0) return;
    must(forgelilac_own_proposal(m->kept.state, words), "what was proposed is kept");
    m->kept.held[round][m->own][m->own] = sign(m->own, "FLP1", words);
    store(m);
    send_own(m);
}

/* Whether a round has what a host waits for: an even one the leader's certificate, an odd one from 3 on a block. */
static int is_complete(struct member *m, uint32_t round) {
    uint32_t weights[FORGELILAC_COMMITTEE_WORDS], leader;
    if (round == 1) return 1;
    if (round % 2 == 0) {
        must(forgelilac_committee(ENGINE(m), round, WORDS(weights)) == 0, "the committee is known");
        leader = forgelilac_leader(round, weights);
        return leader == FORGELILAC_MEMBERS || (held(m, round) >> leader & 1);
    }
    uint64_t answer = forgelilac_commit(ENGINE(m));
    if (forgelilac_refusal_of(answer) != 0) return forgelilac_refusal_of(answer) == FORGELILAC_BLOCK_MADE;
    store(m);
    hand_over(m, forgelilac_value_of(answer));
    return 1;
}

/* One step; 1 where the round was left. */
static int step(struct member *m) {
    uint32_t round = round_of(m), body[FORGELILAC_BODY_WORDS];
    const uint32_t *state = m->kept.state;
    int behind = held(m, round + 1) != 0;               /* others have left this round */
    if (!state[FORGELILAC_STATE_PROPOSED]) propose(m, round);
    int complete = is_complete(m, round), pending = state[FORGELILAC_STATE_PROPOSED] && !(held(m, round) >> m->own & 1);
    uint64_t last_block = forgelilac_block(ENGINE(m), state[FORGELILAC_STATE_BLOCKS]);          /* 23 and 0 for none */
    uint32_t last_known = state[FORGELILAC_STATE_LOOKBACK] + 2 + forgelilac_value_of(last_block);
    if (round == LAST_ROUND || (!complete && round % 2 == 1 && round + 2 > last_known)) return 0;     /* the last chance */
    if (behind ? pending : (pending || !complete) && m->waited < PATIENCE) return 0;
    memcpy(body, state + FORGELILAC_STATE_BODY, sizeof body);
    uint32_t lost = pending ? body[FORGELILAC_BODY_COUNT] : 0;
    if (forgelilac_advance(ENGINE(m)) != 0) return 0;   /* 28: more certificates of this round are needed */
    for (uint32_t *at = body + FORGELILAC_BODY_TRANSACTIONS; lost > 0; lost--, at += FORGELILAC_TRANSACTION_WORDS)
        must(forgelilac_enqueue(ENGINE(m), GUEST, at, FORGELILAC_TRANSACTION_WORDS) == 0, "there is room in the queue");
    m->endorsers = m->waited = 0;
    return 1;
}

/* The guest sends an entry in each round, but leaves room for what may be added again; then what came is taken in. */
static void take_turn(struct member *m) {
    const uint32_t entry[FORGELILAC_TRANSACTION_WORDS] = {FORGELILAC_ENTRY, 100 * m->own + m->sent, 0};
    int may = forgelilac_waiting(m->kept.table, GUEST) < FORGELILAC_QUEUE_PLACES - FORGELILAC_TRANSACTIONS;
    if (may && m->sent < ENTRIES && m->sent < round_of(m) && forgelilac_enqueue(ENGINE(m), GUEST, WORDS(entry)) == 0) {
        store(m);                                       /* and only then the guest is told */
        m->sent++;
    }
    for (size_t i = 0; i < m->arrived; i++) take(m, &m->box[i]);
    m->arrived = 0;
    while (step(m)) {}
    if (++m->waited % AGAIN != 0) return;
    const uint32_t question[FORGELILAC_CERTIFICATE_WORDS] = {m->lowest < round_of(m) - 1 ? m->lowest : round_of(m) - 1};
    m->lowest = CEILING;
    send_own(m);
    post(m, MEMBERS, ASK, question, m->kept.held[0][0]);
}

int main(void) {
    static uint32_t lists[MEMBERS][FORGELILAC_CHAIN_WORDS(CEILING)];
    uint32_t sheet[FORGELILAC_SHEET_WORDS], ends = 0, switched = 0;
    forgelilac_blank_sheet(sheet);
    forgelilac_write_setting(sheet, FORGELILAC_CEILING, CEILING);
    forgelilac_write_setting(sheet, FORGELILAC_LOOKBACK, 6);
    for (uint32_t i = 0; i < MEMBERS; i++) {
        members[i].own = i;
        members[i].kept.format = FORGELILAC_FORMAT;
        must(forgelilac_open(ENGINE(&members[i]), i, WORDS(sheet), FORGELILAC_NO_RIGHTS) == 0, "the sheet serves");
        store(&members[i]);
    }
    memcpy(plant, members[0].kept.state, sizeof plant);
    for (uint32_t turn = 1; turn < 1000 && ends < MEMBERS; turn++) {
        ends = 0;
        for (struct member *m = members; m < members + MEMBERS; m++) {
            if (m->off_until == turn) go_on(m);
            if (m->off_until == 0) take_turn(m);
            if (m->own == 1 && round_of(m) == OFF_IN && switched++ == 0) switch_off(m, turn + OFF_FOR);
            ends += held(m, LAST_ROUND) + 1 == 1 << MEMBERS;
        }
    }
    for (const struct member *m = members; m < members + MEMBERS; m++) {
        uint64_t answer = forgelilac_chain(ENGINE(m), WORDS(lists[m->own]));
        printf("member %u: entries sent %u, blocks %u, certificates in them %u, the chain of member 0: %s\n",
               (unsigned)m->own, (unsigned)m->sent, (unsigned)m->kept.state[FORGELILAC_STATE_BLOCKS],
               (unsigned)forgelilac_value_of(answer), memcmp(lists[m->own], lists[0], sizeof lists[0]) == 0 ? "yes" : "no");
    }
    return 0;
}
