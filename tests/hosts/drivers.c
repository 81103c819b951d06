/* What the usual drivers of serial ports find at a guest's port: each plays the accesses to the registers that the
 * driver makes, in their order, as its source has them, for finding the port, for starting and for receiving. They
 * are no drivers: what a driver makes of what it reads is written here by hand.
 *
 * Each is tried twice, by a host that is a member alone: started before there is a block, and after the first one.
 * Then the host makes more blocks, and the driver receives what waits. A row is printed for each: does it find the
 * port; does it receive the whole listing where it was started first; how many bytes of it it drops where a block
 * was there already; and what to set. */
#include <stdio.h>
#include <stdlib.h>
#include <string.h>

#define FORGELILAC_ANSWERS
#include "forgelilac.h"

enum { CEILING = 64, GUEST = 5, MOST = 4096 };
enum { DATA, ENABLE, INTERRUPT, LINE, MODEM, STATUS, MODEM_STATUS, SCRATCH };

static uint32_t state[FORGELILAC_STATE_WORDS], table[FORGELILAC_TABLE_WORDS(CEILING)];
#define WORDS(array) (array), sizeof(array) / sizeof(uint32_t)
#define ENGINE WORDS(state), WORDS(table)

static void must(uint32_t refusal) {
    if (refusal == FORGELILAC_ACCEPTED) return;
    fprintf(stderr, "refused with %u: %s\n", (unsigned)refusal, forgelilac_refusal_text(refusal));
    exit(1);
}

/* ---- the hypervisor: a guest's access. What is read at offset 0 with bit 7 of offset 3 clear is a byte taken. */

static unsigned char line, taken[MOST];
static size_t count;

static unsigned char in(unsigned offset) {
    struct forgelilac_answer byte, status;
    status = forgelilac_guest_port_read(GUEST, ENGINE, STATUS);
    byte = forgelilac_guest_port_read(GUEST, ENGINE, offset);
    must(status.refusal);
    must(byte.refusal);
    if (offset == DATA && (line & 0x80) == 0 && (status.value & 1) != 0 && count < MOST)
        taken[count++] = (unsigned char)byte.value;
    return (unsigned char)byte.value;
}

static void out(unsigned offset, unsigned char value) {
    if (offset == LINE) line = value;
    must(forgelilac_guest_port_write(GUEST, ENGINE, offset, value));
}

/* ---- the host */

static void make_rounds(uint32_t first, uint32_t last) {
    uint32_t body[FORGELILAC_BODY_WORDS];
    for (uint32_t round = first; round <= last; round++) {
        if (round > 1) must(forgelilac_advance(ENGINE));
        forgelilac_begin_body(body, round > 1);
        forgelilac_add_entry(body, 100 * round);
        must(forgelilac_propose(ENGINE, WORDS(body)));
        must(forgelilac_certify(ENGINE, 0));
    }
}

/* In round 3, which the first block can be made in. */
static void open_member(void) {
    uint32_t sheet[FORGELILAC_SHEET_WORDS];
    forgelilac_blank_sheet(sheet);
    forgelilac_write_setting(sheet, FORGELILAC_CEILING, CEILING);
    for (uint32_t member = 1; member < 4; member++) forgelilac_write_weight(sheet, member, 0);
    must(forgelilac_open(ENGINE, 0, WORDS(sheet), FORGELILAC_RIGHTS(0, 0, 0, 1 << GUEST)));
    make_rounds(1, 3);
    line = 0;
    count = 0;
}

/* ---- Linux, 8250 */

/* 8250_port.c, autoconfig: the test of the interrupt enables, then the loopback, then which chip it is. */
static const char *linux_looks(void) {
    unsigned char enable, none, all, modem, status;
    enable = in(ENABLE);
    out(ENABLE, 0);
    none = in(ENABLE) & 0x0f;
    out(ENABLE, 0x0f);
    all = in(ENABLE) & 0x0f;
    out(ENABLE, enable);
    if (none != 0 || all != 0x0f) return "no port: offset 1 reads 01 after 0F";
    modem = in(MODEM);
    out(MODEM, 0x1a);
    status = in(MODEM_STATUS) & 0xf0;
    out(MODEM, modem);
    if (status != 0x90) return "no port: no loopback";
    return "found";
}

/* Where the type is given, as by a device tree with `ns16450`, there is no test. */
static const char *linux_is_told(void) { return "does not look"; }

/* 8250_port.c, startup: pending interrupts are cleared, a port that reads FF is given up, the test of the
 * transmitter's interrupt, eight bits, the test of a bad transmitter, and cleared once more. */
static void linux_starts(void) {
    static const unsigned char pending[] = {STATUS, DATA, INTERRUPT, MODEM_STATUS};
    for (size_t i = 0; i < sizeof pending; i++) (void)in(pending[i]);
    if (in(STATUS) == 0xff) exit(3);
    while ((in(STATUS) & 0x20) == 0) {}
    for (int turn = 0; turn < 2; turn++) {
        out(ENABLE, 2);
        (void)in(INTERRUPT);
        out(ENABLE, 0);
    }
    out(LINE, 0x03);
    out(MODEM, 0x08);
    out(ENABLE, 2);
    (void)in(STATUS);
    (void)in(INTERRUPT);
    out(ENABLE, 0);
    for (size_t i = 0; i < sizeof pending; i++) (void)in(pending[i]);
}

/* Speed and lines, then the interrupts of received data and of the line. */
static void linux_sets_up(void) {
    out(LINE, 0x83);
    out(DATA, 12);
    out(ENABLE, 0);
    out(LINE, 0x03);
    out(MODEM, 0x0b);
    out(ENABLE, 0x05);
}

/* Its interrupt handler, called as long as offset 2 asks for it. */
static void by_interrupt(void) {
    while ((in(INTERRUPT) & 1) == 0)
        while ((in(STATUS) & 0x11) != 0) (void)in(DATA);
}

/* ---- u-boot, ns16550: told by its device tree; waits for an empty transmitter, sets up, polls */

static void uboot_starts(void) {
    while ((in(STATUS) & 0x40) == 0) {}
    out(ENABLE, 0);
    out(MODEM, 0x03);
    out(INTERRUPT, 0x07);
}

static void uboot_sets_up(void) {
    out(LINE, 0x83);
    out(DATA, 12);
    out(ENABLE, 0);
    out(LINE, 0x03);
}

static void by_polling(void) {
    while ((in(STATUS) & 0x01) != 0) (void)in(DATA);
}

/* ---- FreeBSD, uart with ns8250: bits that read 0, then whether there is a FIFO */

static const char *freebsd_looks(void) {
    unsigned char modem = 0x08;
    if ((in(INTERRUPT) & 0x30) != 0) return "no port: offset 2";
    if ((in(MODEM) & 0xa0) != 0) return "no port: offset 4";
    (void)in(ENABLE);
    out(ENABLE, 0);
    out(INTERRUPT, 0);
    out(MODEM, 0x0b);
    while ((in(STATUS) & 0x40) == 0) {}
    out(MODEM, 0x1b);
    out(INTERRUPT, 0x01);
    if ((in(INTERRUPT) & 0xc0) != 0) return "found, with a FIFO";
    out(MODEM, modem);
    return "found, as 8250 or 16450";
}

/* Attach: it flushes both ways, and as nothing comes of that it drains what waits. */
static void freebsd_starts(void) {
    out(INTERRUPT, 0x07);
    while ((in(STATUS) & 0x01) != 0) (void)in(DATA);
}

static void freebsd_sets_up(void) {
    out(LINE, 0x83);
    out(DATA, 12);
    out(ENABLE, 0);
    out(LINE, 0x03);
    out(ENABLE, 0x05);
    out(MODEM, 0x0b);
}

/* ---- by the data sheet of the 16450, polled: the scratch register tells that it is there */

static const char *sheet_looks(void) {
    out(SCRATCH, 0xa5);
    if (in(SCRATCH) != 0xa5) return "no port";
    out(SCRATCH, 0x5a);
    return in(SCRATCH) == 0x5a ? "found" : "no port";
}

static void sheet_starts(void) {}

/* ---- one after another */

struct driver {
    const char *name;
    const char *(*looks)(void);
    void (*starts)(void), (*sets_up)(void), (*receives)(void);
    const char *to_set;
};

#define FIRST "start it before the first block, and keep it open"
static const struct driver drivers[] = {
    {"Linux 8250, autoconfig", linux_looks, linux_starts, linux_sets_up, by_interrupt,
     "give the type: `ns16450` in the device tree, or `uart 16450` by setserial"},
    {"Linux 8250, type given", linux_is_told, linux_starts, linux_sets_up, by_interrupt, FIRST},
    {"u-boot ns16550", linux_is_told, uboot_starts, uboot_sets_up, by_polling, "nothing"},
    {"FreeBSD uart, ns8250", freebsd_looks, freebsd_starts, freebsd_sets_up, by_interrupt, FIRST},
    {"16450 by its data sheet, polled", sheet_looks, sheet_starts, uboot_sets_up, by_polling, "nothing"},
};

/* The driver looks, starts, and receives, `after` the first block or before it. */
struct run {
    const char *found;
    size_t dropped, received, length;
    int is_rest; /* what it received is the listing behind what it dropped */
};

static struct run play(const struct driver *one, int after) {
    static unsigned char bytes[MOST];
    struct run run;
    open_member();
    if (after) must(forgelilac_commit(ENGINE).refusal);
    run.found = one->looks();
    one->starts();
    one->sets_up();
    run.dropped = count;
    if (!after) must(forgelilac_commit(ENGINE).refusal);
    make_rounds(4, 5);
    must(forgelilac_commit(ENGINE).refusal);
    one->receives();
    run.received = count - run.dropped;
    memcpy(bytes, taken, count);
    /* The whole listing, polled from a port that was reset. */
    must(forgelilac_port_reset(ENGINE, GUEST));
    line = 0;
    count = 0;
    by_polling();
    run.length = count;
    run.is_rest = run.dropped + run.received == count && memcmp(bytes, taken, count) == 0;
    return run;
}

int main(void) {
    printf("| driver | finds the port | started before the first block | started after it | set |\n|---|---|---|---|---|\n");
    for (size_t i = 0; i < sizeof drivers / sizeof drivers[0]; i++) {
        const struct driver *one = &drivers[i];
        const struct run first = play(one, 0), late = play(one, 1);
        printf("| %s | %s | ", one->name, first.found);
        if (strncmp(first.found, "no port", 7) == 0) printf("nothing | nothing");
        else {
            printf("%s | ", first.is_rest && first.dropped == 0 ? "receives the whole listing" : "receives something else");
            if (!late.is_rest) printf("receives something else");
            else if (late.dropped == 0) printf("receives the whole listing");
            else printf("drops %u bytes at its start, then receives the rest", (unsigned)late.dropped);
        }
        printf(" | %s |\n", one->to_set);
    }
    return 0;
}
