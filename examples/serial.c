/* An old guest that only knows a serial port, in C: it polls offset 5, reads offset 0, and prints what it
 * receives. Its host, member 0 of four, makes blocks meanwhile, and the guest gets some bytes between any
 * two calls. What it prints in the end is the listing of examples/serial.stream, the same run as records:
 * what a runner answers to its chain, without the closing ok.
 * A real host signs what it sends, checks signatures before certify and accept, and stores state and
 * table (docs/HOSTS.md). */
#include <stdio.h>
#include <stdlib.h>

#include "forgelilac.h"

enum { CEILING = 64, MEMBERS = 4, ALL = (1 << MEMBERS) - 1, LAST_ROUND = 9, GUEST = 5, AT_A_TIME = 7 };

static uint32_t state[FORGELILAC_STATE_WORDS], table[FORGELILAC_TABLE_WORDS(CEILING)];

/* A pointer and its length, as the calls take them. */
#define WORDS(array) (array), sizeof(array) / sizeof(uint32_t)
#define ENGINE WORDS(state), WORDS(table)

static void must(const char *call, uint32_t refusal) {
    if (refusal == FORGELILAC_ACCEPTED) return;
    fprintf(stderr, "%s refused with %u: %s\n", call, (unsigned)refusal, forgelilac_refusal_text(refusal));
    exit(1);
}

/* ---- between guest and engine: what the guest does to a register comes here. The hypervisor passes the
 * number of the guest that was running, which it knows itself. */

static unsigned char in(unsigned offset) {
    uint64_t answer = forgelilac_guest_port_read(GUEST, ENGINE, offset);
    must("port read", forgelilac_refusal_of(answer));
    return (unsigned char)forgelilac_value_of(answer);
}

static void out(unsigned offset, unsigned char value) {
    must("port write", forgelilac_guest_port_write(GUEST, ENGINE, offset, value));
}

/* ---- the guest: a driver of before there was an engine, by the data sheet of the 16450 */

enum { DATA = 0, ENABLE = 1, LINE = 3, MODEM = 4, STATUS = 5, SCRATCH = 7 };
enum { DIVISOR_BIT = 0x80, EIGHT_BITS = 0x03, READY = 0x03, WAITING = 0x01 };

/* 9,600 bits a second, eight bits, no parity, one stop bit, no interrupts. */
static void set_up(void) {
    out(SCRATCH, 0xa5);
    if (in(SCRATCH) != 0xa5) exit(2); /* no 16450 there */
    out(LINE, DIVISOR_BIT);
    out(DATA, 12);
    out(ENABLE, 0);
    out(LINE, EIGHT_BITS);
    out(MODEM, READY);
    out(ENABLE, 0);
}

/* Receives what waits, at most so many bytes: a guest has other things to do. */
static int receive(int most) {
    int count = 0;
    while (count < most && (in(STATUS) & WAITING)) {
        putchar(in(DATA));
        count++;
    }
    return count;
}

/* ---- the host */

/* The guest may read, and do nothing else. */
static void open_member(void) {
    uint32_t sheet[FORGELILAC_SHEET_WORDS];
    forgelilac_blank_sheet(sheet);
    forgelilac_write_setting(sheet, FORGELILAC_CEILING, CEILING);
    must("open", forgelilac_open(ENGINE, 0, WORDS(sheet), FORGELILAC_RIGHTS(0, 0, 0, 1 << GUEST)));
}

/* What an author proposes: an entry, and in each round one of them bonds member 9 or unbonds it. */
static void begin(uint32_t body[FORGELILAC_BODY_WORDS], uint32_t author, uint32_t round) {
    forgelilac_begin_body(body, round == 1 ? 0 : ALL);
    forgelilac_add_entry(body, 1000000 * round + author);
    if (round % MEMBERS != author) return;
    if (round % 2 == 1) forgelilac_add_bond(body, 9, 100 * round);
    else forgelilac_add_unbond(body, 9);
}

/* The certificate of another member, endorsed by all others. */
static void accept(uint32_t author, uint32_t round) {
    uint32_t certificate[FORGELILAC_CERTIFICATE_WORDS];
    certificate[FORGELILAC_PROPOSAL_AUTHOR] = author;
    certificate[FORGELILAC_PROPOSAL_ROUND] = round;
    begin(certificate + FORGELILAC_PROPOSAL_BODY, author, round);
    certificate[FORGELILAC_CERTIFICATE_ENDORSERS] = ALL & ~(UINT32_C(1) << author);
    must("accept", forgelilac_accept(ENGINE, WORDS(certificate)));
}

static void play(uint32_t round) {
    uint32_t body[FORGELILAC_BODY_WORDS];
    begin(body, 0, round);
    must("propose", forgelilac_propose(ENGINE, WORDS(body)));
    receive(AT_A_TIME);
    must("certify", forgelilac_certify(ENGINE, ALL & ~1u));
    receive(AT_A_TIME);
    for (uint32_t author = 1; author < MEMBERS; author++) {
        accept(author, round);
        receive(AT_A_TIME);
    }
    if (round % 2 == 1 && round > 1) must("commit", forgelilac_refusal_of(forgelilac_commit(ENGINE)));
    receive(AT_A_TIME);
    if (round < LAST_ROUND) must("advance", forgelilac_advance(ENGINE));
}

int main(void) {
    open_member();
    set_up();
    for (uint32_t round = 1; round <= LAST_ROUND; round++) play(round);
    while (receive(AT_A_TIME) > 0) continue;
    return 0;
}
