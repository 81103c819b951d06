/* storing [TURNS]: what a store and a load cost at ceilings 64, 256 and 1,024, best of TURNS, 30 if not given, as a table in Markdown, in
 * microseconds of processor time. Beside them CRC-32C over the same bytes, by a table of 256 words and bit by bit, which tells less.
 * bench/run.sh builds and runs it.
 *
 *     gcc -O2 -Iinclude bench/storing.c crates/host/out/libhost.a -o storing && ./storing */
#define _POSIX_C_SOURCE 200809L
#include <stdio.h>
#include <stdlib.h>
#include <string.h>
#include <time.h>
#include "forgelilac.h"

enum { MOST = 1024 };
static uint32_t state[FORGELILAC_STATE_WORDS], table[FORGELILAC_TABLE_WORDS(MOST)], again[FORGELILAC_TABLE_WORDS(MOST)], entries[256];
static uint8_t bytes[FORGELILAC_STORED_BYTES(MOST)];
static size_t count, words;
static volatile uint32_t answer;

static void store(void) { answer = forgelilac_store(state, FORGELILAC_STATE_WORDS, table, words, 1, bytes, count); }

static void load(void) { answer = forgelilac_load(bytes, count, 0, 1, state, FORGELILAC_STATE_WORDS, again, words); }

static void by_table(void) {
    uint32_t sum = UINT32_MAX;
    for (size_t i = 0; i < count; i++) sum = entries[(sum ^ bytes[i]) & 255] ^ sum >> 8;
    answer = sum;
}

static void by_bits(void) {
    uint32_t sum = UINT32_MAX;
    for (size_t i = 0; i < count; i++) {
        sum ^= bytes[i];
        for (int bit = 0; bit < 8; bit++) sum = sum >> 1 ^ (0x82f63b78u & -(sum & 1));
    }
    answer = sum;
}

static double best(void (*run)(void), int turns) {
    double least = 1e9;
    for (int i = 0; i < turns; i++) {
        struct timespec from, to;
        clock_gettime(CLOCK_PROCESS_CPUTIME_ID, &from);
        run();
        clock_gettime(CLOCK_PROCESS_CPUTIME_ID, &to);
        double took = (double)(to.tv_sec - from.tv_sec) * 1e6 + (double)(to.tv_nsec - from.tv_nsec) / 1e3;
        if (took < least) least = took;
    }
    return least;
}

int main(int arguments, char **argument) {
    int turns = arguments > 1 ? atoi(argument[1]) : 30;
    for (uint32_t i = 0; i < 256; i++) {
        entries[i] = i;
        for (int bit = 0; bit < 8; bit++) entries[i] = entries[i] >> 1 ^ (0x82f63b78u & -(entries[i] & 1));
    }
    puts("| ceiling | bytes | store us | load us | CRC-32C by a table us | CRC-32C bit by bit us |\n|---:|---:|---:|---:|---:|---:|");
    for (uint32_t ceiling = 64; ceiling <= MOST; ceiling *= 4) {
        uint32_t sheet[FORGELILAC_SHEET_WORDS];
        count = FORGELILAC_STORED_BYTES(ceiling);
        words = FORGELILAC_TABLE_WORDS(ceiling);
        forgelilac_blank_sheet(sheet);
        forgelilac_write_setting(sheet, FORGELILAC_CEILING, ceiling);
        if (forgelilac_open(state, FORGELILAC_STATE_WORDS, table, words, 0, sheet, FORGELILAC_SHEET_WORDS, FORGELILAC_NO_RIGHTS) != 0) return 1;
        for (size_t i = 0; i < words; i++) table[i] = (uint32_t)i * 2654435761u;
        double stores = best(store, turns), loads = best(load, turns);
        if (answer != 0 || memcmp(table, again, words * sizeof(uint32_t)) != 0) return 1;
        printf("| %u | %zu | %.0f | %.0f | %.0f | %.0f |\n", (unsigned)ceiling, count, stores, loads, best(by_table, turns), best(by_bits, turns));
    }
    return 0;
}
