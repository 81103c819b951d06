/* The suite for hosts in C: your own store and transport in runs in which power fails, messages are lost, and a faulty
 * member lies. What is wrong with them comes out as a short run, in words (docs/PLANT.md, "The suite").
 *
 *     cargo build --release --manifest-path plant/Cargo.toml
 *     gcc -std=c99 -Iplant/include -Iinclude host_suite.c plant/target/release/libplant.a -lpthread -ldl -lm
 */
#ifndef FORGELILAC_SUITE_H
#define FORGELILAC_SUITE_H

#include <stddef.h>
#include <stdint.h>

#ifdef __cplusplus
extern "C" {
#endif

/* A member's disk: files by number. What was written is safe after the next sync; where power fails before it, each
 * sector of 512 bytes is there or not. */
struct forgelilac_suite_disk;
/* Who has signed what. */
struct forgelilac_suite_keys;

void forgelilac_suite_write(struct forgelilac_suite_disk *disk, uint32_t file, size_t at, const void *bytes, size_t length);
void forgelilac_suite_sync(struct forgelilac_suite_disk *disk);
void forgelilac_suite_read(const struct forgelilac_suite_disk *disk, uint32_t file, size_t at, void *bytes, size_t length);

/* Whether a member has signed the proposal of sixteen words, as its author or as one who endorses it: 1 or 0. */
int forgelilac_suite_signed(const struct forgelilac_suite_keys *keys, uint32_t member, const uint32_t *proposal);

/* What is to be stored in one piece, and what comes back. */
struct forgelilac_suite_record {
    uint64_t count;                     /* rises by one with every store */
    uint32_t *state;
    size_t state_words;                 /* FORGELILAC_STATE_WORDS */
    uint32_t *table;
    size_t table_words;                 /* of a load the room, and then how many there are */
    uint32_t *endorsed;                 /* sixteen words of each proposal whose endorsement may be sent again */
    size_t endorsed_words;              /* of a load the room, and then how many there are */
};

/* A store. What it keeps in memory is lost when power fails: `end` is called, and then `begin`. */
struct forgelilac_suite_store {
    void *(*begin)(uint32_t member);    /* may be null */
    void (*end)(void *memory);          /* may be null */
    /* 0 once the record is there whatever happens next; else nothing is sent. */
    int (*store)(void *memory, struct forgelilac_suite_disk *disk, const struct forgelilac_suite_record *record);
    /* 1: the record of the store that was done last, or of the one that power failed in. 0: nothing was ever stored.
     * Less: what was stored cannot be read. */
    int (*load)(void *memory, struct forgelilac_suite_disk *disk, struct forgelilac_suite_record *record);
};

enum {
    FORGELILAC_SUITE_PROPOSAL = 1,
    FORGELILAC_SUITE_ENDORSEMENT = 2,
    FORGELILAC_SUITE_CERTIFICATES = 3,
    FORGELILAC_SUITE_QUESTION = 4,
    FORGELILAC_SUITE_MESSAGE_BYTES = 8192
};

struct forgelilac_suite_message {
    uint32_t kind;
    uint32_t by;                        /* who sends it; of an endorsement the endorser */
    uint32_t round;                     /* of a question the lowest round of which something is missing */
    uint32_t *words;                    /* sixteen of a proposal, or of the endorsed one; seventeen of each certificate */
    size_t words_count;                 /* of an unpack the room, and then how many there are */
};

/* A transport. */
struct forgelilac_suite_transport {
    /* The bytes of a message of this member, which has signed what is in it: how many were written. */
    size_t (*pack)(const struct forgelilac_suite_message *message, uint8_t *bytes, size_t room);
    /* 1 and the message that came over the link of `from`, once every signature in it is checked; 0 where one is not
     * good, or the bytes are no message. */
    int (*unpack)(uint32_t from, const uint8_t *bytes, size_t length, const struct forgelilac_suite_keys *keys,
                  struct forgelilac_suite_message *message);
};

/* Runs by `count` seeds from `first` on: 0 where nothing was found, else how many seeds it took. What was found is
 * written into `said`, text that ends in 0. Either part may be null: then it is the plant's own. */
uint64_t forgelilac_suite_run(const struct forgelilac_suite_store *store,
                              const struct forgelilac_suite_transport *transport, uint64_t first, uint64_t count,
                              char *said, size_t room);

#ifdef __cplusplus
}
#endif

#endif
