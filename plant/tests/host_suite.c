/* A store and a transport in C, right and wrong ones, tried by the suite. */
#include <stdio.h>
#include <stdlib.h>
#include <string.h>

#include "forgelilac_suite.h"

/* ---- a store: two files in turns, each with a sum, and a note of the one that is done */

static uint32_t sum_of(const uint32_t *words, size_t count) {
    uint32_t sum = 1;
    while (count-- > 0) sum = (sum << 5 | sum >> 27) * 16777619u ^ *words++;
    return sum;
}

static int store(void *memory, struct forgelilac_suite_disk *disk, const struct forgelilac_suite_record *record) {
    const size_t head = 4, words = head + record->state_words + record->table_words + record->endorsed_words;
    uint32_t *all = (uint32_t *)malloc((words + 1) * sizeof *all), *at = all + head;
    (void)memory;
    if (all == NULL) return 1;
    all[0] = (uint32_t)record->count;
    all[1] = (uint32_t)record->state_words;
    all[2] = (uint32_t)record->table_words;
    all[3] = (uint32_t)record->endorsed_words;
    memcpy(at, record->state, record->state_words * sizeof *at);
    at += record->state_words;
    memcpy(at, record->table, record->table_words * sizeof *at);
    at += record->table_words;
    if (record->endorsed_words > 0) memcpy(at, record->endorsed, record->endorsed_words * sizeof *at);
    all[words] = sum_of(all, words);
    forgelilac_suite_write(disk, 1 + record->count % 2, 0, all, (words + 1) * sizeof *all);
    forgelilac_suite_sync(disk);
    forgelilac_suite_write(disk, 0, 0, all, sizeof *all);
    forgelilac_suite_sync(disk);
    free(all);
    return 0;
}

static int load(void *memory, struct forgelilac_suite_disk *disk, struct forgelilac_suite_record *record) {
    uint32_t done, head[4], *all;
    size_t words;
    (void)memory;
    forgelilac_suite_read(disk, 0, 0, &done, sizeof done);
    if (done == 0) return 0;
    forgelilac_suite_read(disk, 1 + done % 2, 0, head, sizeof head);
    if (head[0] != done || head[1] != record->state_words || head[2] > record->table_words
        || head[3] > record->endorsed_words) return -1;
    words = 4 + (size_t)head[1] + head[2] + head[3];
    all = (uint32_t *)malloc((words + 1) * sizeof *all);
    if (all == NULL) return -2;
    forgelilac_suite_read(disk, 1 + done % 2, 0, all, (words + 1) * sizeof *all);
    if (all[words] != sum_of(all, words)) { free(all); return -3; }
    record->count = done;
    memcpy(record->state, all + 4, head[1] * sizeof *all);
    memcpy(record->table, all + 4 + head[1], head[2] * sizeof *all);
    memcpy(record->endorsed, all + 4 + head[1] + head[2], head[3] * sizeof *all);
    record->table_words = head[2];
    record->endorsed_words = head[3];
    free(all);
    return 1;
}

/* Wrong: it stores the state, and of the table only the first rows. */
static int store_state_alone(void *memory, struct forgelilac_suite_disk *disk,
                             const struct forgelilac_suite_record *record) {
    struct forgelilac_suite_record part = *record;
    int answer;
    part.table = (uint32_t *)calloc(record->table_words, sizeof *part.table);
    if (part.table == NULL) return 1;
    memcpy(part.table, record->table, 272 * sizeof *part.table);
    answer = store(memory, disk, &part);
    free(part.table);
    return answer;
}

/* ---- a transport: the message's words as they are */

static size_t pack(const struct forgelilac_suite_message *message, uint8_t *bytes, size_t room) {
    uint32_t head[4] = {message->kind, message->by, message->round, (uint32_t)message->words_count};
    size_t length = sizeof head + message->words_count * sizeof *message->words;
    if (length > room) return 0;
    memcpy(bytes, head, sizeof head);
    if (message->words_count > 0) memcpy(bytes + sizeof head, message->words, length - sizeof head);
    return length;
}

static int read_message(const uint8_t *bytes, size_t length, struct forgelilac_suite_message *message) {
    uint32_t head[4];
    if (length < sizeof head) return 0;
    memcpy(head, bytes, sizeof head);
    if (head[3] > message->words_count || length != sizeof head + head[3] * sizeof *message->words) return 0;
    memcpy(message->words, bytes + sizeof head, length - sizeof head);
    message->kind = head[0];
    message->by = head[1];
    message->round = head[2];
    message->words_count = head[3];
    return 1;
}

static int unpack(uint32_t from, const uint8_t *bytes, size_t length, const struct forgelilac_suite_keys *keys,
                  struct forgelilac_suite_message *message) {
    size_t at;
    uint32_t member;
    (void)from;
    if (!read_message(bytes, length, message)) return 0;
    switch (message->kind) {
    case FORGELILAC_SUITE_PROPOSAL:
        return message->words_count == 16 && forgelilac_suite_signed(keys, message->words[0], message->words);
    case FORGELILAC_SUITE_ENDORSEMENT:
        return message->words_count == 16 && forgelilac_suite_signed(keys, message->by, message->words);
    case FORGELILAC_SUITE_CERTIFICATES:
        for (at = 0; at + 17 <= message->words_count; at += 17) {
            const uint32_t *one = message->words + at;
            if (!forgelilac_suite_signed(keys, one[0], one)) return 0;
            for (member = 0; member < 16; member++)
                if (one[16] >> member & 1 && !forgelilac_suite_signed(keys, member, one)) return 0;
        }
        return at == message->words_count;
    case FORGELILAC_SUITE_QUESTION:
        return 1;
    }
    return 0;
}

/* Wrong: it looks at no signature. */
static int unpack_unchecked(uint32_t from, const uint8_t *bytes, size_t length,
                            const struct forgelilac_suite_keys *keys, struct forgelilac_suite_message *message) {
    (void)from;
    (void)keys;
    return read_message(bytes, length, message);
}

int main(void) {
    static char said[8192];
    const struct forgelilac_suite_store right = {NULL, NULL, store, load};
    const struct forgelilac_suite_store alone = {NULL, NULL, store_state_alone, load};
    const struct forgelilac_suite_transport links = {pack, unpack}, unchecked = {pack, unpack_unchecked};
    printf("right: %d\n", (int)forgelilac_suite_run(&right, &links, 1, 20, said, sizeof said));
    printf("%s", said);
    printf("state alone: %s\n", forgelilac_suite_run(&alone, NULL, 1, 1000, said, sizeof said) > 0 ? "found" : "not");
    printf("%s\n", strstr(said, "the state came back with another table") ? "the state came back with another table" : said);
    printf("unchecked: %s\n", forgelilac_suite_run(NULL, &unchecked, 1, 1000, said, sizeof said) > 0 ? "found" : "not");
    printf("%s\n", strstr(said, "without checking it") ? "a message was taken in without checking it" : said);
    return 0;
}
