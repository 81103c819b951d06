/* Forgelilac for C and C++ hosts: one member's engine, on words that the host lends.
 *
 * Link with `pkg-config --cflags --libs forgelilac`, that is -lforgelilac. C99 or later, or C++;
 * a freestanding compiler serves. The archive asks for memcpy and memset and for nothing else.
 *
 * Stretches. A stretch is a pointer and a length: in 32-bit words; of a row of certificates in records; of
 * bytes in bytes; of kept committees in words of 64 bits. Stretches of one call do not overlap. Words and
 * records are aligned as uint32_t is, kept committees as uint64_t is; a pointer may be null where its
 * length is 0. Any length and any content is safe, but of owner's calls. A stretch may be longer than its
 * layout: what lies beyond is not looked at and never changes.
 *
 * Answers. A call answers 0 when accepted, else the refusal number; the first check that fails
 * gives it. An answer of 64 bits has the value in its low half and the refusal number in its high half;
 * forgelilac_answer_of parts them. (forgelilac_table_words and forgelilac_stored_bytes refuse nothing: their
 * 64 bits are one number.) Define FORGELILAC_ANSWERS before this header, and each of these calls
 * answers struct forgelilac_answer, of which no half can be dropped unseen: new hosts do. A refused call
 * changes no word. An answer of a call that is not looked at is warned of. The numbers at the end of a
 * function's comment are its refusals in the order of its checks. docs/RULES.md has the checks, docs/HOSTS.md
 * what each refusal asks of you; docs/TABLES.md has the layouts and which words each call changes.
 *
 * Guests. What a guest asks for goes by the guest's form of the call, forgelilac_guest_..., with the
 * number of the caller: it is refused with 26 or 29, or does and answers what the host's own call
 * would. The rights are fixed at opening. See "calls of guests" below. Old guests have a serial port
 * each: what they do to its registers goes by forgelilac_guest_port_read and _write.
 *
 * Threads. The engine keeps nothing between calls and has no global state. Calls on distinct
 * states and tables may run at once. One state and its table belong to one call at a time. Reads
 * only read: several reads of one engine may run at once while no other call on it does. What is lent
 * the table for writing runs alone: forgelilac_critical, and every access to a port. A guest's form
 * counts as the host's call. No call blocks, allocates, or calls back.
 *
 * Stack. Calls use the caller's stack, as much at every ceiling: see FORGELILAC_STACK_BYTES, and for
 * owner's calls FORGELILAC_OWNED_STACK_BYTES. */
#ifndef FORGELILAC_H
#define FORGELILAC_H

#include <stddef.h>
#include <stdint.h>

#ifdef __cplusplus
extern "C" {
#endif

/* ---- versions */

/* Of the header, and of the archive that belongs to it: as text, as its three parts, and as the number
 * that forgelilac_version answers. */
#define FORGELILAC_VERSION "0.15.0"
#define FORGELILAC_VERSION_MAJOR 0
#define FORGELILAC_VERSION_MINOR 15
#define FORGELILAC_VERSION_PATCH 0
#define FORGELILAC_VERSION_NUMBER \
    (1000000u * FORGELILAC_VERSION_MAJOR + 1000u * FORGELILAC_VERSION_MINOR + FORGELILAC_VERSION_PATCH)
/* Of the words of state and table; no word of theirs has it. forgelilac_store writes it into its bytes; in
 * a form of your own store it beside the words: docs/TABLES.md tells what to do with words of an older format. Those of format 1 have a state of 37 words: write 3
 * to word FORGELILAC_STATE_MARGIN behind them, and it is one of format 2. Those of format 2 have a
 * state of 38 words: write the rights of callers to word FORGELILAC_STATE_RIGHTS behind them,
 * FORGELILAC_NO_RIGHTS or others, and it is one of format 3. The table stays as it is. */
#define FORGELILAC_FORMAT 3

/* ---- what a compiler is told, as far as it has words for it
 *
 * FORGELILAC_CHECKED: the answer is to be looked at. FORGELILAC_READS(p, n): parameter p points to as many
 * words, bytes or records as parameter n says, which are read; FORGELILAC_WRITES: which are written and
 * never read before; FORGELILAC_CHANGES: both. FORGELILAC_POINTERS: no pointer is null. */
#ifdef __has_attribute
#define FORGELILAC_HAS(attribute) __has_attribute(attribute)
#else
#define FORGELILAC_HAS(attribute) 0
#endif
#if (defined(__cplusplus) && __cplusplus >= 201703L) || (defined(__STDC_VERSION__) && __STDC_VERSION__ > 201710L)
#define FORGELILAC_CHECKED [[nodiscard]]
#elif FORGELILAC_HAS(warn_unused_result)
#define FORGELILAC_CHECKED __attribute__((warn_unused_result))
#else
#define FORGELILAC_CHECKED
#endif
#if FORGELILAC_HAS(access)
#define FORGELILAC_READS(pointer, length) __attribute__((access(read_only, pointer, length)))
#define FORGELILAC_WRITES(pointer, length) __attribute__((access(write_only, pointer, length)))
#define FORGELILAC_CHANGES(pointer, length) __attribute__((access(read_write, pointer, length)))
#else
#define FORGELILAC_READS(pointer, length)
#define FORGELILAC_WRITES(pointer, length)
#define FORGELILAC_CHANGES(pointer, length)
#endif
#if FORGELILAC_HAS(nonnull)
#define FORGELILAC_POINTERS __attribute__((nonnull))
#else
#define FORGELILAC_POINTERS
#endif
/* Of an enumerator; gcc 5 has the attribute for others alone. */
#if FORGELILAC_HAS(deprecated) && (defined(__clang__) || __GNUC__ > 5)
#define FORGELILAC_OLD(instead) __attribute__((deprecated(instead)))
#else
#define FORGELILAC_OLD(instead)
#endif

/* Of the archive: FORGELILAC_VERSION_NUMBER, and FORGELILAC_FORMAT. */
FORGELILAC_CHECKED
uint32_t forgelilac_version(void);
FORGELILAC_CHECKED
uint32_t forgelilac_format(void);
/* The format too. An archive of another format has no function of this name: forgelilac_open calls it,
 * so that header and archive of two formats do not link. */
FORGELILAC_CHECKED
uint32_t forgelilac_format_3(void);

/* ---- lengths, in words */

#define FORGELILAC_MEMBERS 16
#define FORGELILAC_TRANSACTIONS 4     /* the largest allowance */
#define FORGELILAC_GUESTS 8           /* guests that have a queue and a port and may be callers, 0 to 7 */
#define FORGELILAC_QUEUE_PLACES 8     /* the most transactions that wait in a queue */
#define FORGELILAC_BLOCKS 511         /* the most blocks of a state, at ceiling 1,024 */
#define FORGELILAC_STATE_WORDS 39
#define FORGELILAC_TRANSACTION_WORDS 3
#define FORGELILAC_BODY_WORDS 14
#define FORGELILAC_PROPOSAL_WORDS 16
#define FORGELILAC_CERTIFICATE_WORDS 17 /* as accept takes it */
#define FORGELILAC_HELD_WORDS 18        /* as the certificate read gives it */
#define FORGELILAC_SHEET_WORDS 40
#define FORGELILAC_COMMITTEE_WORDS 16
#define FORGELILAC_EFFECT_WORDS 33      /* as forgelilac_bond_effect gives them */
#define FORGELILAC_LISTED_WORDS 3       /* a certificate as forgelilac_chain lists it */
#define FORGELILAC_ENTRY_WORDS 3        /* an entry of a preview, the same three words */
#define FORGELILAC_PLACE_WORDS 2        /* a certificate as forgelilac_critical lists it */
#define FORGELILAC_CRITICAL_WORDS 64    /* the list that forgelilac_critical asks for: 32 places */
#define FORGELILAC_BATCH_RECORDS 64     /* the most certificates of a batch, in records */
#define FORGELILAC_PORT_WORDS 8         /* the words of a port, in row 0 of a table */
/* A list in which there is room for the rows of all blocks of a state of this ceiling. */
#define FORGELILAC_ROWS_WORDS(ceiling) (288u * (ceiling) + 288u)
/* A table for a state of this ceiling; forgelilac_table_words as a constant. */
#define FORGELILAC_TABLE_WORDS(ceiling) (272u * (ceiling) + 272u)
/* Room for forgelilac_chain at every chain of a state of this ceiling, the same. */
#define FORGELILAC_CHAIN_WORDS(ceiling) FORGELILAC_ROWS_WORDS(ceiling)
/* The list that a preview of a state of this ceiling asks for: 16 places for each round. */
#define FORGELILAC_PREVIEW_WORDS(ceiling) (48u * (ceiling))

/* Bytes of stack that serve every call and every function below but owner's calls, which have
 * FORGELILAC_OWNED_STACK_BYTES, on x86-64; examples/stack.c measures what the calls use. Preview
 * uses about 46 KB, every other call that may walk over the blocks 39 to 44 KB, but a port read about
 * 36 KB, the others less than 1 KB; a guest's form little more than the host's call. */
#define FORGELILAC_STACK_BYTES 49152

/* ---- words of a state */

#define FORGELILAC_STATE_OWN 0
#define FORGELILAC_STATE_LOOKBACK 1
#define FORGELILAC_STATE_CEILING 2
#define FORGELILAC_STATE_ALLOWANCE 3
#define FORGELILAC_STATE_WEIGHTS 4    /* sixteen starting weights */
#define FORGELILAC_STATE_ROUND 20
#define FORGELILAC_STATE_PROPOSED 21  /* is there a proposal: 0 or 1 */
#define FORGELILAC_STATE_BLOCKS 22    /* number of blocks */
#define FORGELILAC_STATE_BODY 23      /* body of the proposal */
#define FORGELILAC_STATE_MARGIN 37    /* margin, 3 to 5 */
#define FORGELILAC_STATE_RIGHTS 38    /* rights of callers, any word */

/* ---- rights: what guests may do, fixed at opening */

/* Which calls each of them is for. A guest adds to no queue but its own, reaches no port but its own,
 * and never opens or resets. */
enum forgelilac_right {
    FORGELILAC_RIGHT_PROPOSE = 0, /* propose, draw, enqueue */
    FORGELILAC_RIGHT_SIGN = 1,    /* endorse, certify, accept, batch */
    FORGELILAC_RIGHT_DRIVE = 2,   /* advance, commit */
    FORGELILAC_RIGHT_READ = 3     /* committee, share, bond effect, certificate, block, block rows, preview, critical; the chain; one's own port */
};
/* Rights of callers 0 to 7 as a word, of four sets of callers, caller c counting 2 to the power c: bit
 * 8 * right + caller is set where the caller has the right. Any word is some rights. */
#define FORGELILAC_RIGHTS(propose, sign, drive, read)                            \
    (((uint32_t)(propose) & 0xffu) | ((uint32_t)(sign) & 0xffu) << 8             \
     | ((uint32_t)(drive) & 0xffu) << 16 | ((uint32_t)(read) & 0xffu) << 24)
/* Nobody may do anything. */
#define FORGELILAC_NO_RIGHTS 0u

/* ---- words of a body, a proposal, a certificate, a held certificate, a listed one, an entry of a
 * preview, a place that a commit hangs on, the effect of a bond */

#define FORGELILAC_BODY_PREVIOUS 0
#define FORGELILAC_BODY_COUNT 1
#define FORGELILAC_BODY_TRANSACTIONS 2 /* each: kind, number, amount */
#define FORGELILAC_PROPOSAL_AUTHOR 0
#define FORGELILAC_PROPOSAL_ROUND 1
#define FORGELILAC_PROPOSAL_BODY 2
#define FORGELILAC_CERTIFICATE_ENDORSERS 16
#define FORGELILAC_HELD_ENDORSERS 16 /* those that it was first stored with */
#define FORGELILAC_HELD_BLOCK 17     /* number of its block, 0 for none; see forgelilac_block */
#define FORGELILAC_LISTED_BLOCK 0    /* number of its block, from 1 */
#define FORGELILAC_LISTED_ROUND 1
#define FORGELILAC_LISTED_AUTHOR 2
#define FORGELILAC_ENTRY_BLOCK 0     /* number of the block that would hold it */
#define FORGELILAC_ENTRY_ROUND 1
#define FORGELILAC_ENTRY_AUTHOR 2
#define FORGELILAC_PLACE_ROUND 0
#define FORGELILAC_PLACE_AUTHOR 1
#define FORGELILAC_EFFECT_BEFORE 0   /* sixteen shares before the bond */
#define FORGELILAC_EFFECT_AFTER 16   /* sixteen after it */
#define FORGELILAC_EFFECT_LARGEST 32 /* the largest difference, without sign */

/* A certificate of a row, for forgelilac_batch: its 17 words in their order. forgelilac_record_of
 * makes one of words. The certificate read has the same name: write `struct`, in C++ too. */
struct forgelilac_certificate {
    uint32_t author, round, body[FORGELILAC_BODY_WORDS], endorsers;
};

enum forgelilac_kind {
    FORGELILAC_BOND = 0,   /* number: member, amount: 1 to 1,000 */
    FORGELILAC_UNBOND = 1, /* number: member, amount: 0 */
    FORGELILAC_ENTRY = 2   /* number: any, amount: 0 */
};

/* ---- words of a table: a row for each round, in it a record for each author */

#define FORGELILAC_ROW_WORDS 272
#define FORGELILAC_ROW_HELD 0         /* held set */
#define FORGELILAC_ROW_ENDORSED 1     /* endorsed set */
#define FORGELILAC_ROW_BLOCK 2        /* in row k: the round of block k */
#define FORGELILAC_ROW_RECORDS 16
#define FORGELILAC_RECORD_WORDS 16
#define FORGELILAC_RECORD_PREVIOUS 0
#define FORGELILAC_RECORD_COUNT 1
#define FORGELILAC_RECORD_BLOCK 2     /* commit mark: number of its block, 0 for none */
#define FORGELILAC_RECORD_ENDORSERS 3
#define FORGELILAC_RECORD_TRANSACTIONS 4 /* each: kind, number, amount */
/* Where row r begins, and the record of an author and a round. */
#define FORGELILAC_ROW(round) ((size_t)FORGELILAC_ROW_WORDS * (round))
#define FORGELILAC_RECORD(author, round) \
    (FORGELILAC_ROW(round) + FORGELILAC_ROW_RECORDS + (size_t)FORGELILAC_RECORD_WORDS * (author))

/* ---- words of row 0, which belongs to no round: queues and ports of guests. Words 9 to 15 are kept for later */

#define FORGELILAC_SERVED 0           /* the guest served last and 1 more, 0 for none */
#define FORGELILAC_WAITING 1          /* plus the guest: how many transactions wait, 0 to 8 */
/* Where the queue of a guest begins: eight places of a transaction's three words, the oldest first. */
#define FORGELILAC_QUEUE(guest) (24u + 32u * (guest))
/* Where the port of a guest begins, before its queue: the last byte of the listing that was read, both
 * words 0 where none was since reset, and the registers that are held. */
#define FORGELILAC_PORT(guest) (16u + 32u * (guest))
#define FORGELILAC_PORT_PLACE 0        /* 16 r + m: the byte is of the line of member m's certificate of round r */
#define FORGELILAC_PORT_BYTE 1         /* which byte of that line, counted from 1 */
#define FORGELILAC_PORT_ENABLE 2       /* 0 or 1 */
#define FORGELILAC_PORT_LINE 3         /* 0 to 255 */
#define FORGELILAC_PORT_MODEM 4        /* 0 to 31 */
#define FORGELILAC_PORT_SCRATCH 5      /* 0 to 255 */
#define FORGELILAC_PORT_DIVISOR_LOW 6  /* 0 to 255 */
#define FORGELILAC_PORT_DIVISOR_HIGH 7 /* 0 to 255 */

/* ---- offsets of a port: the eight byte registers of the published 16450 UART */

/* While bit 7 of offset 3 is set, offsets 0 and 1 are the two divisor bytes, read and written as they
 * are, and a read of offset 0 takes no byte. docs/GUESTS.md, "Serial port", has a driver. */
enum forgelilac_offset {
    FORGELILAC_OFFSET_DATA = 0,         /* reads the next byte of the listing and takes it, or 0 with none waiting; what is written is dropped */
    FORGELILAC_OFFSET_ENABLE = 1,       /* keeps bit 0, which enables the received data interrupt */
    FORGELILAC_OFFSET_INTERRUPT = 2,    /* reads 4 while that is enabled and a byte waits, else 1; writes are ignored */
    FORGELILAC_OFFSET_LINE = 3,         /* keeps all eight bits */
    FORGELILAC_OFFSET_MODEM = 4,        /* keeps the low five bits */
    FORGELILAC_OFFSET_STATUS = 5,       /* reads hexadecimal 60, plus 1 while a byte waits; writes are ignored */
    FORGELILAC_OFFSET_MODEM_STATUS = 6, /* reads 0; writes are ignored */
    FORGELILAC_OFFSET_SCRATCH = 7       /* keeps all eight bits */
};
#define FORGELILAC_OFFSETS 8

/* ---- settings of a sheet: each two words, blank (0) or written (1), then the value */

/* All members of a plant open with equal filled settings, the margin among them. For total weight n
 * the fault bound is (n - 1) divided by the margin, rounded down, and 0 for n = 0; a quorum is a set
 * inside the committee of weight at least n minus that. For total 16 margin 3 gives 5 and 11, margin 5
 * gives 3 and 13. */
enum forgelilac_setting {
    FORGELILAC_LOOKBACK = 0,  /* 1 to 1,000, blank 20 */
    FORGELILAC_CEILING = 1,   /* 3 to 1,024, blank 1,024 */
    FORGELILAC_ALLOWANCE = 2, /* 0 to 4, blank 4 */
    /* plus the member: 0 to 1,000,000, blank 1 for 0 to 3, else 0. There is no member 16, and 3 + 16 is
     * the margin's place: forgelilac_write_weight tells */
    FORGELILAC_WEIGHT FORGELILAC_OLD("write weights by forgelilac_write_weight: 16 behind it is the margin") = 3,
    FORGELILAC_MARGIN = 19    /* 3 to 5, blank 3 */
};

/* ---- refusal numbers */

enum forgelilac_refusal {
    FORGELILAC_ACCEPTED = 0,
    FORGELILAC_MALFORMED = 1,          /* state not well formed, a table too short, or words that cannot be read */
    FORGELILAC_SETTING_RANGE = 2,      /* setting out of range */
    FORGELILAC_NO_WEIGHT = 3,          /* no positive weight */
    FORGELILAC_MEMBER_RANGE = 4,       /* member above 15 */
    FORGELILAC_ROUND_RANGE = 5,        /* round 0 or over the ceiling */
    FORGELILAC_TRANSACTIONS_RANGE = 6, /* a transaction out of range or over the allowance */
    FORGELILAC_PREVIOUS_EMPTY = 7,     /* previous set empty above round 1, or not empty in it */
    FORGELILAC_COMMITTEE_UNKNOWN = 8,  /* committee of the round unknown */
    FORGELILAC_OUTSIDE = 9,            /* own number, a signer or the member asked for outside the committee */
    FORGELILAC_PLACE_TAKEN = 10,       /* a proposal exists, place held or already endorsed */
    FORGELILAC_PREVIOUS_MISSING = 11,  /* a named previous certificate not held */
    FORGELILAC_PREVIOUS_QUORUM = 12,   /* previous set no quorum of the round before */
    FORGELILAC_SIGNERS_SHORT = 13,     /* signers short of a quorum */
    FORGELILAC_SIGNED_TWICE = 14,      /* endorse: author is oneself; certify: oneself among them; accept: author among endorsers */
    FORGELILAC_NO_PROPOSAL = 15,       /* no proposal this round */
    FORGELILAC_SAME_HELD = 16,         /* the same certificate held */
    FORGELILAC_OTHER_HELD = 17,        /* another certificate held there */
    FORGELILAC_AT_CEILING = 18,        /* at the ceiling */
    FORGELILAC_NO_COMMIT_ROUND = 19,   /* the present round is even or 1 */
    FORGELILAC_BLOCK_MADE = 20,        /* last block's round at least the round before */
    FORGELILAC_NO_ANCHOR = 21,         /* no anchor in the round before */
    FORGELILAC_VOTES_SHORT = 22,       /* votes weigh not more than the fault bound */
    FORGELILAC_NONE_THERE = 23,        /* no such certificate or block */
    FORGELILAC_LENGTH_RANGE = 25,      /* batch: a row over 64, or answers shorter than the row; preview: a list with fewer than 16 places per round of the ceiling; critical: a list with fewer than 32 places; block rows: a list without room for the blocks' certificates */
    FORGELILAC_GUEST_RANGE = 26,       /* guest, caller or port above 7 */
    FORGELILAC_QUEUE_FULL = 27,        /* the queue holds eight transactions */
    FORGELILAC_THIN_ROUND = 28,        /* the authors of the certificates held in the present round form no quorum of its committee */
    FORGELILAC_NO_RIGHT = 29,          /* the caller lacks the right that the call needs */
    FORGELILAC_EMPTY_COMMITTEE = 30,   /* committee of the round empty */
    FORGELILAC_OFFSET_RANGE = 31       /* offset above 7 */
};

/* ---- calls: 0 accepted, else the refusal number */

/* Opens a member by its number, a sheet and the rights of callers (FORGELILAC_RIGHTS, or
 * FORGELILAC_NO_RIGHTS). Accepted: the state is written fresh, round 1 and nothing held, and the used
 * part of the table cleared. Neither need be set before. No later call changes the rights, and no
 * rights are refused; members of a plant need not have equal ones. It starts a new run: never open
 * again to go on with one. 1 for words that cannot be read, 4, 2, 3, 1. */
FORGELILAC_CHECKED FORGELILAC_WRITES(1, 2) FORGELILAC_WRITES(3, 4) FORGELILAC_READS(6, 7)
uint32_t forgelilac_open(uint32_t *state, size_t state_words,
                         uint32_t *table, size_t table_words,
                         uint32_t own, const uint32_t *sheet, size_t sheet_words,
                         uint32_t rights);
/* What forgelilac_open stands for below: the same call, for an archive of format 3 and for no other. */
FORGELILAC_CHECKED FORGELILAC_WRITES(1, 2) FORGELILAC_WRITES(3, 4) FORGELILAC_READS(6, 7)
static inline uint32_t forgelilac_open_format_3(uint32_t *state, size_t state_words,
                                                uint32_t *table, size_t table_words,
                                                uint32_t own, const uint32_t *sheet, size_t sheet_words,
                                                uint32_t rights) {
    return forgelilac_format_3() == FORGELILAC_FORMAT
               ? forgelilac_open(state, state_words, table, table_words, own, sheet, sheet_words, rights)
               : (uint32_t)FORGELILAC_MALFORMED;
}
#define forgelilac_open forgelilac_open_format_3
/* Proposes a body (previous set, transactions) for one's own place of the present round. Accepted:
 * the proposal is kept in the state until advance. It touches no queue. Store the state
 * before the signature leaves. 1, 6, 7, 10, 8, 9, 11, 12. */
FORGELILAC_CHECKED FORGELILAC_CHANGES(1, 2) FORGELILAC_READS(3, 4) FORGELILAC_READS(5, 6)
uint32_t forgelilac_propose(uint32_t *state, size_t state_words,
                            const uint32_t *table, size_t table_words,
                            const uint32_t *body, size_t body_words);
/* Adds a transaction (kind, number, amount) to the queue of a guest, as its youngest. Accepted: it
 * waits there until a draw takes it. Only the table changes; store it, or the transaction may be
 * lost. 1, 26, 6, 27. */
FORGELILAC_CHECKED FORGELILAC_READS(1, 2) FORGELILAC_CHANGES(3, 4) FORGELILAC_READS(6, 7)
uint32_t forgelilac_enqueue(const uint32_t *state, size_t state_words,
                            uint32_t *table, size_t table_words,
                            uint32_t guest, const uint32_t *transaction, size_t transaction_words);
/* Proposes what it draws from the queues: the oldest transaction of each guest with something
 * waiting, starting after the guest served last, at first with 0, going round until the allowance
 * is met or the queues are empty. It is propose of that list, and with nothing drawn of none.
 * Accepted: the proposal is kept in the state until advance, what was drawn leaves its queues, and
 * the guest of the last one is the guest served last; forgelilac_own_proposal gives the proposal.
 * Store both before the signature leaves. 1, 7, 10, 8, 9, 11, 12. */
FORGELILAC_CHECKED FORGELILAC_CHANGES(1, 2) FORGELILAC_CHANGES(3, 4)
uint32_t forgelilac_draw(uint32_t *state, size_t state_words,
                         uint32_t *table, size_t table_words, uint32_t previous);
/* Endorses another's proposal, once its signature is checked. Accepted: its place is marked
 * endorsed. Store the table before the signature leaves. 1, 4, 5, 6, 7, 14, 10, 8, 11, 12. */
FORGELILAC_CHECKED FORGELILAC_READS(1, 2) FORGELILAC_CHANGES(3, 4) FORGELILAC_READS(5, 6)
uint32_t forgelilac_endorse(const uint32_t *state, size_t state_words,
                            uint32_t *table, size_t table_words,
                            const uint32_t *proposal, size_t proposal_words);
/* Makes a certificate of one's own proposal with these endorsers (a set without oneself), whose
 * signatures are checked. Accepted: it is held. 1, 15, 10, 14, 8, 9, 13. */
FORGELILAC_CHECKED FORGELILAC_READS(1, 2) FORGELILAC_CHANGES(3, 4)
uint32_t forgelilac_certify(const uint32_t *state, size_t state_words,
                            uint32_t *table, size_t table_words, uint32_t endorsers);
/* Takes a certificate of anybody's, once its signatures are checked. Accepted: it is held with its
 * endorsers, and its endorsed mark cleared. 1, 4, 5, 6, 7, 14, 16, 17, 8, 9, 13, 11. */
FORGELILAC_CHECKED FORGELILAC_READS(1, 2) FORGELILAC_CHANGES(3, 4) FORGELILAC_READS(5, 6)
uint32_t forgelilac_accept(const uint32_t *state, size_t state_words,
                           uint32_t *table, size_t table_words,
                           const uint32_t *certificate, size_t certificate_words);
/* Takes a row of certificates of anybody's, once their signatures are checked: up to 64, in any
 * order. They are tried by rising round, then author, then place in the row. Each gets what
 * forgelilac_accept would have answered at its turn, 0 where it was accepted, at its own place in
 * answers; a record that cannot be read gets 1, and the others are tried. Answers beyond the row
 * stay. What got 11 gets 11 again straight afterwards, or 17 where the row has filled its place with
 * another. An empty row is accepted. Refused: nothing is tried. 1, 25. */
FORGELILAC_CHECKED FORGELILAC_READS(1, 2) FORGELILAC_CHANGES(3, 4) FORGELILAC_READS(5, 6) FORGELILAC_WRITES(7, 8)
uint32_t forgelilac_batch(const uint32_t *state, size_t state_words,
                          uint32_t *table, size_t table_words,
                          const struct forgelilac_certificate *row, size_t row_count,
                          uint32_t *answers, size_t answers_words);
/* Goes on to the next round, once the authors of the certificates held in the present round form a
 * quorum of its committee. Accepted: the proposal is dropped. Refused with 28: accept more
 * certificates of this round, and try again. 1, 18, 8 for the present round unknown, 28. */
FORGELILAC_CHECKED FORGELILAC_CHANGES(1, 2) FORGELILAC_READS(3, 4)
uint32_t forgelilac_advance(uint32_t *state, size_t state_words,
                            const uint32_t *table, size_t table_words);
/* Makes blocks. Low half: how many were added. High half: refusal number. 1, 19, 20, 8, 21, 22. */
FORGELILAC_CHECKED FORGELILAC_CHANGES(1, 2) FORGELILAC_CHANGES(3, 4)
uint64_t forgelilac_commit(uint32_t *state, size_t state_words,
                           uint32_t *table, size_t table_words);
/* Resets the port of a guest, as when the guest is started anew: all registers that it holds are 0,
 * and reading resumes at the listing's start. An accepted open resets every port; otherwise only this
 * does, and no guest has it. Only the table changes. 26 comes before everything else, also where the
 * words of the state cannot be read. 26, 1. */
FORGELILAC_CHECKED FORGELILAC_READS(1, 2) FORGELILAC_CHANGES(3, 4)
uint32_t forgelilac_port_reset(const uint32_t *state, size_t state_words,
                               uint32_t *table, size_t table_words, uint32_t guest);

/* ---- reads */

/* What would a commit do? The certificates of each block that it would add, into list: three words
 * each, the number of its block, its round and its author (FORGELILAC_ENTRY_BLOCK and so on). It is
 * what committing on a copy of state and table, and reading the new blocks there, gives: the blocks
 * oldest first, their numbers going on from those there are; inside a block rounds rise, and within
 * a round numbers rise from that of the leader of the block's round, with 0 after 15. Low half: how
 * many certificates, so 3 times as many words of list are written; those beyond stay. High half:
 * refusal number; then no word of list is written. State and table are read and never written.
 * A place is three words, and what is left over is none; 25 for fewer than 16 places per round of
 * the ceiling (FORGELILAC_PREVIEW_WORDS), however few there are to list. Then the checks of commit.
 * 1, 25, 19, 20, 8, 21, 22. */
FORGELILAC_CHECKED FORGELILAC_READS(1, 2) FORGELILAC_READS(3, 4) FORGELILAC_WRITES(5, 6)
uint64_t forgelilac_preview(const uint32_t *state, size_t state_words,
                            const uint32_t *table, size_t table_words,
                            uint32_t *list, size_t list_words);
/* Which certificates does a commit hang on? Every held certificate of the present round and the one
 * before whose absence alone would turn that commit into a refusal, into list: two words each, its
 * round and its author (FORGELILAC_PLACE_ROUND, FORGELILAC_PLACE_AUTHOR), by round, then author. In
 * every state that calls lead to from an opening it is the anchor, and each vote without which the
 * remaining votes weigh not more than the fault bound. Low half: how many, so 2 times as many words
 * of list are written; those beyond stay. High half: refusal number; then no word of list is written.
 * A place is two words, and what is left over is none; 25 for fewer than 32 places
 * (FORGELILAC_CRITICAL_WORDS), however few there are to list. Then the checks of commit: where it
 * would be refused, the list is refused with the same number.
 *
 * The table is lent for writing, and is afterwards word for word as it was. Where a commit would be
 * accepted and a certificate of the two rounds already is in a block, as in no state that calls lead
 * to from an opening, the engine clears its held bit, makes the checks, and sets the bit again. So
 * lend a table in memory that can be written, and let no other call run on it meanwhile, no read
 * either. The state is only read. There is nothing to store afterwards. 1, 25, 19, 20, 8, 21, 22. */
FORGELILAC_CHECKED FORGELILAC_READS(1, 2) FORGELILAC_CHANGES(3, 4) FORGELILAC_WRITES(5, 6)
uint64_t forgelilac_critical(const uint32_t *state, size_t state_words,
                             uint32_t *table, size_t table_words,
                             uint32_t *list, size_t list_words);
/* Sixteen weights of a round's committee into out, 0 for a non-member. 1, 5, 8. */
FORGELILAC_CHECKED FORGELILAC_READS(1, 2) FORGELILAC_READS(3, 4) FORGELILAC_WRITES(6, 7)
uint32_t forgelilac_committee(const uint32_t *state, size_t state_words,
                              const uint32_t *table, size_t table_words,
                              uint32_t round, uint32_t *out, size_t out_words);
/* Low half: the member's weight in thousandths of its committee's total, to the nearest; an
 * exact half goes to the even one: 1 of 16 (62.5) gives 62, 3 of 16 (187.5) gives 188. A member
 * may have 0 (1 of 2,000). High half: refusal number, 9 for a non-member; the low half is then 0
 * too, so look at the high half first. 1, 4, 5, 8, 9. */
FORGELILAC_CHECKED FORGELILAC_READS(1, 2) FORGELILAC_READS(3, 4)
uint64_t forgelilac_share(const uint32_t *state, size_t state_words,
                          const uint32_t *table, size_t table_words,
                          uint32_t member, uint32_t round);
/* How far does a bond move the shares? Into out the sixteen shares of a round's committee, the
 * sixteen that it would have after a bond of the member by the amount, and the largest difference of
 * a member's two, without sign: 33 words (FORGELILAC_EFFECT_BEFORE and so on); those beyond stay.
 * Shares are those of forgelilac_share, and 0 for a non-member. The bond adds the amount to the
 * member's weight; a non-member joins. With total n before the bond and amount k the largest
 * difference is never more than 1 plus the whole part of 1,000 * k / (n + k). Nothing is bonded:
 * state and table are read and never written. A bond that a block holds counts in the committees
 * of rounds above that block's plus the lookback, together with what else the chain changes until
 * then: ask for round lookback + last block's round + 1, which all blocks of now change.
 * Refused: no word of out is written. 1, 4, 5, 6 for an amount other than 1 to 1,000, 8, 30. */
FORGELILAC_CHECKED FORGELILAC_READS(1, 2) FORGELILAC_READS(3, 4) FORGELILAC_WRITES(8, 9)
uint32_t forgelilac_bond_effect(const uint32_t *state, size_t state_words,
                                const uint32_t *table, size_t table_words,
                                uint32_t member, uint32_t round, uint32_t amount,
                                uint32_t *out, size_t out_words);
/* A held certificate into out: proposal, the endorsers that it was first stored with, the
 * number of its block, 0 for none. The first 17 words are a certificate as accept takes it.
 * 1, 4, 5, 23. */
FORGELILAC_CHECKED FORGELILAC_READS(1, 2) FORGELILAC_READS(3, 4) FORGELILAC_WRITES(7, 8)
uint32_t forgelilac_certificate(const uint32_t *state, size_t state_words,
                                const uint32_t *table, size_t table_words,
                                uint32_t author, uint32_t round,
                                uint32_t *out, size_t out_words);
/* Low half: the block's round. High half: refusal number. Blocks count from 1. A block's
 * certificates are those with its number; forgelilac_chain lists them in order. 1, 23. */
FORGELILAC_CHECKED FORGELILAC_READS(1, 2) FORGELILAC_READS(3, 4)
uint64_t forgelilac_block(const uint32_t *state, size_t state_words,
                          const uint32_t *table, size_t table_words, uint32_t number);
/* What blocks hold: of `number` blocks after the first `known` all certificates into list, oldest block
 * first, FORGELILAC_HELD_WORDS (18) each, as forgelilac_certificate gives them: the certificate with the
 * endorsers that it was first stored with, then the number of its block. In a block rounds rise, and
 * within a round numbers rise from that of the leader of the block's round, with 0 after 15. 0 and
 * state[FORGELILAC_STATE_BLOCKS] give the whole chain; after a commit that added n, what is new are the
 * n after the first state[FORGELILAC_STATE_BLOCKS] - n. Low half: how many certificates. High half:
 * refusal number: 23 where there are fewer blocks, 25 where list has no room for these certificates;
 * FORGELILAC_ROWS_WORDS(ceiling) always serve. What lies beyond them stays; refused, all does.
 * 1, 23, 25. */
FORGELILAC_CHECKED FORGELILAC_READS(1, 2) FORGELILAC_READS(3, 4) FORGELILAC_WRITES(7, 8)
uint64_t forgelilac_block_rows(const uint32_t *state, size_t state_words,
                               const uint32_t *table, size_t table_words,
                               uint32_t known, uint32_t number,
                               uint32_t *list, size_t list_words);
/* The words that a table for this ceiling needs. No refusal. */
FORGELILAC_CHECKED
uint64_t forgelilac_table_words(uint32_t ceiling);
/* The leader of a round, by sixteen weights, 0 for a non-member: of the members by rising number the one at
 * position (round / 2) mod their number, counted from 0. 16 for none: an odd round, round 0, and an empty
 * committee have none. Words behind the sixteenth are not looked at; one that is not there counts as 0. No
 * refusal. */
FORGELILAC_CHECKED FORGELILAC_READS(2, 3)
uint32_t forgelilac_leader_of(uint32_t round, const uint32_t *weights, size_t weights_words);

/* ---- storing
 *
 * A member as bytes, with a digest over all of them, and back: what a host writes to a disk. And the bytes
 * that are signed. `run` is a number of the host's choosing, the same on all members and in no other run. A
 * refused call changes no byte and no word. Its number is one of these, and never one of a call's. A digest
 * tells bytes that were torn or mixed, and is no signature: whoever can write to the store can store anything.
 * docs/TABLES.md, "The stored form"; docs/HOSTS.md, "Stored words" and "What is signed, to the byte". */

enum forgelilac_storing_refusal {
    FORGELILAC_UNREADABLE_WORDS = 101, /* the state's words or those handed in cannot be read, or the table is too short */
    FORGELILAC_NO_ROOM = 102,          /* too few bytes or words are lent to write to */
    FORGELILAC_OTHER_MARK = 103,       /* no stored member */
    FORGELILAC_OTHER_FORMAT = 104,     /* stored in another format than FORGELILAC_FORMAT */
    FORGELILAC_TORN = 105,             /* of another length than its ceiling tells, or with another digest */
    FORGELILAC_OTHER_MEMBER = 106,     /* stored by another member */
    FORGELILAC_OTHER_RUN = 107         /* stored in another run */
};

/* The bytes that a member of this ceiling is stored in; forgelilac_stored_bytes as a constant. */
#define FORGELILAC_STORED_BYTES(ceiling) \
    (16 + 4 * (size_t)FORGELILAC_STATE_WORDS + 4 * FORGELILAC_TABLE_WORDS(ceiling) + 32)
#define FORGELILAC_SIGNED_BYTES 100             /* what is signed of a proposal, or of an endorsement */
#define FORGELILAC_SIGNED_CERTIFICATE_BYTES 104 /* of a whole certificate */

/* How many bytes a member of this ceiling is stored in. No refusal. */
FORGELILAC_CHECKED
uint64_t forgelilac_stored_bytes(uint32_t ceiling);
/* Stores state and table in the first forgelilac_stored_bytes of bytes. 101, 102. */
FORGELILAC_CHECKED FORGELILAC_READS(1, 2) FORGELILAC_READS(3, 4) FORGELILAC_WRITES(6, 7)
uint32_t forgelilac_store(const uint32_t *state, size_t state_words,
                          const uint32_t *table, size_t table_words,
                          uint64_t run, uint8_t *bytes, size_t bytes_count);
/* Loads what member own stored in this run: exactly its bytes, so bytes_count is their number. State and
 * table then begin with the words that were stored. 105, 103, 104, 105, 106, 107, 101, 102. */
FORGELILAC_CHECKED FORGELILAC_READS(1, 2) FORGELILAC_CHANGES(5, 6) FORGELILAC_CHANGES(7, 8)
uint32_t forgelilac_load(const uint8_t *bytes, size_t bytes_count, uint32_t own, uint64_t run,
                         uint32_t *state, size_t state_words, uint32_t *table, size_t table_words);
/* What the author signs of a proposal: 100 bytes. Words of transactions beyond their number count as 0,
 * and of the state only the filled settings are looked at. 101, 102. */
FORGELILAC_CHECKED FORGELILAC_READS(1, 2) FORGELILAC_READS(4, 5) FORGELILAC_WRITES(6, 7)
uint32_t forgelilac_proposal_bytes(const uint32_t *state, size_t state_words, uint64_t run,
                                   const uint32_t *proposal, size_t proposal_words,
                                   uint8_t *bytes, size_t bytes_count);
/* What an endorser signs of a proposal: 100 bytes, with another mark. 101, 102. */
FORGELILAC_CHECKED FORGELILAC_READS(1, 2) FORGELILAC_READS(4, 5) FORGELILAC_WRITES(6, 7)
uint32_t forgelilac_endorsement_bytes(const uint32_t *state, size_t state_words, uint64_t run,
                                      const uint32_t *proposal, size_t proposal_words,
                                      uint8_t *bytes, size_t bytes_count);
/* What is signed where whole certificates are: 104 bytes, the endorsers last. 101, 102. */
FORGELILAC_CHECKED FORGELILAC_READS(1, 2) FORGELILAC_READS(4, 5) FORGELILAC_WRITES(6, 7)
uint32_t forgelilac_certificate_bytes(const uint32_t *state, size_t state_words, uint64_t run,
                                      const uint32_t *certificate, size_t certificate_words,
                                      uint8_t *bytes, size_t bytes_count);

/* ---- calls of guests
 *
 * Guests may ask for calls in their own name: the hypervisor takes what a guest asks for, and calls the guest's
 * form with the number of that guest. It passes the number that it knows itself, of the guest that was
 * running, never one that the guest wrote. State and table are the host's and out of the guests' reach,
 * the rights among them; and no stretch may change while a call runs, so copy what a guest hands over
 * into memory of the host's first, and what it gets back out of it.
 *
 * Each answers 26 for a caller above 7, then 29 where the caller lacks the right that the call needs.
 * Both come before everything else, before 1 too: the rights are read from the state's word alone, in
 * any state, well formed or not, and where the stretch ends before that word nobody has a right. Refused
 * so, it looks at nothing else and changes no word of state, table, out, list or answers. Else it does
 * and answers what the host's own call does, with the refusals of that one; what the host has to store
 * after its own call it has to store after this one. In answers of 64 bits 26 and 29 are in the high half
 * like the others, and the low half is 0. The host's own calls look at no rights. The last two, the
 * accesses to a port, are guests' alone: the host has no such call of its own. */

/* Right: propose. */
FORGELILAC_CHECKED FORGELILAC_CHANGES(2, 3) FORGELILAC_READS(4, 5) FORGELILAC_READS(6, 7)
uint32_t forgelilac_guest_propose(uint32_t caller,
                                  uint32_t *state, size_t state_words,
                                  const uint32_t *table, size_t table_words,
                                  const uint32_t *body, size_t body_words);
/* Right: propose. Draws from the queues of all guests, as the host's. */
FORGELILAC_CHECKED FORGELILAC_CHANGES(2, 3) FORGELILAC_CHANGES(4, 5)
uint32_t forgelilac_guest_draw(uint32_t caller,
                               uint32_t *state, size_t state_words,
                               uint32_t *table, size_t table_words, uint32_t previous);
/* Right: propose. To the caller's own queue, so no guest is named. 26, 29, 1, 6, 27. */
FORGELILAC_CHECKED FORGELILAC_READS(2, 3) FORGELILAC_CHANGES(4, 5) FORGELILAC_READS(6, 7)
uint32_t forgelilac_guest_enqueue(uint32_t caller,
                                  const uint32_t *state, size_t state_words,
                                  uint32_t *table, size_t table_words,
                                  const uint32_t *transaction, size_t transaction_words);
/* Right: sign. */
FORGELILAC_CHECKED FORGELILAC_READS(2, 3) FORGELILAC_CHANGES(4, 5) FORGELILAC_READS(6, 7)
uint32_t forgelilac_guest_endorse(uint32_t caller,
                                  const uint32_t *state, size_t state_words,
                                  uint32_t *table, size_t table_words,
                                  const uint32_t *proposal, size_t proposal_words);
/* Right: sign. */
FORGELILAC_CHECKED FORGELILAC_READS(2, 3) FORGELILAC_CHANGES(4, 5)
uint32_t forgelilac_guest_certify(uint32_t caller,
                                  const uint32_t *state, size_t state_words,
                                  uint32_t *table, size_t table_words, uint32_t endorsers);
/* Right: sign. */
FORGELILAC_CHECKED FORGELILAC_READS(2, 3) FORGELILAC_CHANGES(4, 5) FORGELILAC_READS(6, 7)
uint32_t forgelilac_guest_accept(uint32_t caller,
                                 const uint32_t *state, size_t state_words,
                                 uint32_t *table, size_t table_words,
                                 const uint32_t *certificate, size_t certificate_words);
/* Right: sign. */
FORGELILAC_CHECKED FORGELILAC_READS(2, 3) FORGELILAC_CHANGES(4, 5) FORGELILAC_READS(6, 7) FORGELILAC_WRITES(8, 9)
uint32_t forgelilac_guest_batch(uint32_t caller,
                                const uint32_t *state, size_t state_words,
                                uint32_t *table, size_t table_words,
                                const struct forgelilac_certificate *row, size_t row_count,
                                uint32_t *answers, size_t answers_words);
/* Right: drive. */
FORGELILAC_CHECKED FORGELILAC_CHANGES(2, 3) FORGELILAC_READS(4, 5)
uint32_t forgelilac_guest_advance(uint32_t caller,
                                  uint32_t *state, size_t state_words,
                                  const uint32_t *table, size_t table_words);
/* Right: drive. */
FORGELILAC_CHECKED FORGELILAC_CHANGES(2, 3) FORGELILAC_CHANGES(4, 5)
uint64_t forgelilac_guest_commit(uint32_t caller,
                                 uint32_t *state, size_t state_words,
                                 uint32_t *table, size_t table_words);
/* Right: read. */
FORGELILAC_CHECKED FORGELILAC_READS(2, 3) FORGELILAC_READS(4, 5) FORGELILAC_WRITES(6, 7)
uint64_t forgelilac_guest_preview(uint32_t caller,
                                  const uint32_t *state, size_t state_words,
                                  const uint32_t *table, size_t table_words,
                                  uint32_t *list, size_t list_words);
/* Right: read. The table is lent for writing, as by the host's. */
FORGELILAC_CHECKED FORGELILAC_READS(2, 3) FORGELILAC_CHANGES(4, 5) FORGELILAC_WRITES(6, 7)
uint64_t forgelilac_guest_critical(uint32_t caller,
                                   const uint32_t *state, size_t state_words,
                                   uint32_t *table, size_t table_words,
                                   uint32_t *list, size_t list_words);
/* Right: read. */
FORGELILAC_CHECKED FORGELILAC_READS(2, 3) FORGELILAC_READS(4, 5) FORGELILAC_WRITES(7, 8)
uint32_t forgelilac_guest_committee(uint32_t caller,
                                    const uint32_t *state, size_t state_words,
                                    const uint32_t *table, size_t table_words,
                                    uint32_t round, uint32_t *out, size_t out_words);
/* Right: read. */
FORGELILAC_CHECKED FORGELILAC_READS(2, 3) FORGELILAC_READS(4, 5)
uint64_t forgelilac_guest_share(uint32_t caller,
                                const uint32_t *state, size_t state_words,
                                const uint32_t *table, size_t table_words,
                                uint32_t member, uint32_t round);
/* Right: read. */
FORGELILAC_CHECKED FORGELILAC_READS(2, 3) FORGELILAC_READS(4, 5) FORGELILAC_WRITES(9, 10)
uint32_t forgelilac_guest_bond_effect(uint32_t caller,
                                      const uint32_t *state, size_t state_words,
                                      const uint32_t *table, size_t table_words,
                                      uint32_t member, uint32_t round, uint32_t amount,
                                      uint32_t *out, size_t out_words);
/* Right: read. */
FORGELILAC_CHECKED FORGELILAC_READS(2, 3) FORGELILAC_READS(4, 5) FORGELILAC_WRITES(8, 9)
uint32_t forgelilac_guest_certificate(uint32_t caller,
                                      const uint32_t *state, size_t state_words,
                                      const uint32_t *table, size_t table_words,
                                      uint32_t author, uint32_t round,
                                      uint32_t *out, size_t out_words);
/* Right: read. */
FORGELILAC_CHECKED FORGELILAC_READS(2, 3) FORGELILAC_READS(4, 5)
uint64_t forgelilac_guest_block(uint32_t caller,
                                const uint32_t *state, size_t state_words,
                                const uint32_t *table, size_t table_words, uint32_t number);
/* Right: read. */
FORGELILAC_CHECKED FORGELILAC_READS(2, 3) FORGELILAC_READS(4, 5) FORGELILAC_WRITES(8, 9)
uint64_t forgelilac_guest_block_rows(uint32_t caller,
                                     const uint32_t *state, size_t state_words,
                                     const uint32_t *table, size_t table_words,
                                     uint32_t known, uint32_t number,
                                     uint32_t *list, size_t list_words);
/* Right: read. Reads an offset of the caller's own port (FORGELILAC_OFFSET_DATA and so on), so no port
 * is named. Low half: the byte, 0 to 255. High half: refusal number. The listing that it receives is text,
 * a line for each certificate in a block, in the order of the chain, each ended by CR and LF: block, round
 * of the block, round of the certificate and author, then of each transaction E, B or U, number and
 * amount, with commas between, as 1,2,1,0,E,100,0,B,2,1. A byte waits exactly while the listing has bytes
 * that this port has not read since reset. A read of offset 0 that takes one changes the port's first two
 * words of the table; no other read changes a word. Store them, or after a restore the guest may be
 * given bytes again. 31 comes before 1, also where the words of the state cannot be read.
 * 26, 29, 31, 1. */
FORGELILAC_CHECKED FORGELILAC_READS(2, 3) FORGELILAC_CHANGES(4, 5)
uint64_t forgelilac_guest_port_read(uint32_t caller,
                                    const uint32_t *state, size_t state_words,
                                    uint32_t *table, size_t table_words, uint32_t offset);
/* Right: read, also for a write. Writes a byte to an offset of the caller's own port: at most one word of
 * the table changes, that of the register. 26, 29, 31, 1. */
FORGELILAC_CHECKED FORGELILAC_READS(2, 3) FORGELILAC_CHANGES(4, 5)
uint32_t forgelilac_guest_port_write(uint32_t caller,
                                     const uint32_t *state, size_t state_words,
                                     uint32_t *table, size_t table_words,
                                     uint32_t offset, uint8_t value);

/* ---- owner's calls
 *
 * Each call above first looks at all that is held, so that any words are safe to lend. A host that alone
 * writes a member's words need not pay for that with each call. It keeps one stretch more with state and
 * table, the kept committees, and makes the owner's call, forgelilac_owned_..., in place of forgelilac_...:
 * the same parameters, with the kept committees behind the table. It does and answers what the other one
 * does, with the same refusals, and takes the same little time however much is held. What a commit, a
 * preview, a batch, block rows and the chain that is made of them take goes by how many blocks, entries and
 * certificates there are; what a guest's read of its port takes at a line's end, by how many rounds its
 * block and the next one have certificates in. docs/HOSTS.md, "A host that owns its words", tells when to use
 * them.
 *
 * The premise of each: the words are owned. Words are owned from an accepted forgelilac_owned_resume on, as
 * long as state, table and kept committees are, word for word, as the last call on this member left them, be it
 * that resume, an owner's call, or another call but open, load, commit and a guest's commit, and nobody else has
 * written any of them: no other code of the host, no guest, no device. Every owner's call keeps them owned, refused or not. Copied together, word for word and in their
 * whole lengths, they are owned where they are now.
 *
 * Where the words are not owned nothing is promised, memory safety included: an owner's call may then
 * read and write beside its stretches. It tests nothing of the premise. What the other parameters hold is
 * tested, as everywhere: any length and any content of a body, a certificate, a row, a list is safe.
 *
 * After forgelilac_open and after forgelilac_load or another restore, resume; after forgelilac_commit or its
 * guest's form too, which does not know of kept committees. Every other call above leaves the words that the owner's call leaves,
 * and so leaves them owned. Rules on threads are those of the calls above: the kept committees belong to the state. */

/* The kept committees of a state of this ceiling, in words of 64 bits, aligned as uint64_t is. */
#define FORGELILAC_KEPT_WORDS(ceiling) (16u * (ceiling) + 17u)
/* Bytes of stack that serve every owner's call on x86-64: resume, block rows and a listing of the chain use about
 * 41 KB, a port read about 36 KB, each other one 11 KB or less. examples/stack.c measures it. */
#define FORGELILAC_OWNED_STACK_BYTES 49152

/* Tests the words once and fills the kept committees, which need not be set before: from here on the
 * words are owned. 1 where words of the state cannot be read, where the state is not well formed with its
 * table, where a held certificate or the proposal names one that is not held, or one in a block names one
 * in none, where a block has a certificate above its own round, or one in a round below and none in the round
 * after, and where the kept committees are too short: then no word is written, and the words are not owned. No
 * calls lead to words whose histories or blocks are so. State and table are only read. It makes the test that
 * one call above makes, a look at whom each certificate names and at each one's mark, and one walk for the
 * committees. On owned words with a stretch long enough it answers 0 at any time, so made now and then it is a
 * check of their bits. */
FORGELILAC_CHECKED FORGELILAC_READS(1, 2) FORGELILAC_READS(3, 4) FORGELILAC_WRITES(5, 6)
uint32_t forgelilac_owned_resume(const uint32_t *state, size_t state_words,
                                 const uint32_t *table, size_t table_words,
                                 uint64_t *kept, size_t kept_words);

/* Calls, each as that without owned_. Only commit writes the kept committees, and a refused one leaves them. */
FORGELILAC_CHECKED FORGELILAC_CHANGES(1, 2) FORGELILAC_READS(3, 4) FORGELILAC_READS(5, 6) FORGELILAC_READS(7, 8)
uint32_t forgelilac_owned_propose(uint32_t *state, size_t state_words,
                                  const uint32_t *table, size_t table_words,
                                  const uint64_t *kept, size_t kept_words,
                                  const uint32_t *body, size_t body_words);
FORGELILAC_CHECKED FORGELILAC_READS(1, 2) FORGELILAC_CHANGES(3, 4) FORGELILAC_READS(5, 6) FORGELILAC_READS(8, 9)
uint32_t forgelilac_owned_enqueue(const uint32_t *state, size_t state_words,
                                  uint32_t *table, size_t table_words,
                                  const uint64_t *kept, size_t kept_words,
                                  uint32_t guest, const uint32_t *transaction, size_t transaction_words);
FORGELILAC_CHECKED FORGELILAC_CHANGES(1, 2) FORGELILAC_CHANGES(3, 4) FORGELILAC_READS(5, 6)
uint32_t forgelilac_owned_draw(uint32_t *state, size_t state_words,
                               uint32_t *table, size_t table_words,
                               const uint64_t *kept, size_t kept_words,
                               uint32_t previous);
FORGELILAC_CHECKED FORGELILAC_READS(1, 2) FORGELILAC_CHANGES(3, 4) FORGELILAC_READS(5, 6) FORGELILAC_READS(7, 8)
uint32_t forgelilac_owned_endorse(const uint32_t *state, size_t state_words,
                                  uint32_t *table, size_t table_words,
                                  const uint64_t *kept, size_t kept_words,
                                  const uint32_t *proposal, size_t proposal_words);
FORGELILAC_CHECKED FORGELILAC_READS(1, 2) FORGELILAC_CHANGES(3, 4) FORGELILAC_READS(5, 6)
uint32_t forgelilac_owned_certify(const uint32_t *state, size_t state_words,
                                  uint32_t *table, size_t table_words,
                                  const uint64_t *kept, size_t kept_words,
                                  uint32_t endorsers);
FORGELILAC_CHECKED FORGELILAC_READS(1, 2) FORGELILAC_CHANGES(3, 4) FORGELILAC_READS(5, 6) FORGELILAC_READS(7, 8)
uint32_t forgelilac_owned_accept(const uint32_t *state, size_t state_words,
                                 uint32_t *table, size_t table_words,
                                 const uint64_t *kept, size_t kept_words,
                                 const uint32_t *certificate, size_t certificate_words);
FORGELILAC_CHECKED FORGELILAC_READS(1, 2) FORGELILAC_CHANGES(3, 4) FORGELILAC_READS(5, 6) FORGELILAC_READS(7, 8)
FORGELILAC_WRITES(9, 10)
uint32_t forgelilac_owned_batch(const uint32_t *state, size_t state_words,
                                uint32_t *table, size_t table_words,
                                const uint64_t *kept, size_t kept_words,
                                const struct forgelilac_certificate *row, size_t row_count,
                                uint32_t *answers, size_t answers_words);
FORGELILAC_CHECKED FORGELILAC_CHANGES(1, 2) FORGELILAC_READS(3, 4) FORGELILAC_READS(5, 6)
uint32_t forgelilac_owned_advance(uint32_t *state, size_t state_words,
                                  const uint32_t *table, size_t table_words,
                                  const uint64_t *kept, size_t kept_words);
FORGELILAC_CHECKED FORGELILAC_CHANGES(1, 2) FORGELILAC_CHANGES(3, 4) FORGELILAC_CHANGES(5, 6)
uint64_t forgelilac_owned_commit(uint32_t *state, size_t state_words,
                                 uint32_t *table, size_t table_words,
                                 uint64_t *kept, size_t kept_words);
FORGELILAC_CHECKED FORGELILAC_READS(1, 2) FORGELILAC_CHANGES(3, 4) FORGELILAC_READS(5, 6)
uint32_t forgelilac_owned_port_reset(const uint32_t *state, size_t state_words,
                                     uint32_t *table, size_t table_words,
                                     const uint64_t *kept, size_t kept_words,
                                     uint32_t guest);

/* Reads, each as that without owned_. */
FORGELILAC_CHECKED FORGELILAC_READS(1, 2) FORGELILAC_READS(3, 4) FORGELILAC_READS(5, 6) FORGELILAC_WRITES(7, 8)
uint64_t forgelilac_owned_preview(const uint32_t *state, size_t state_words,
                                  const uint32_t *table, size_t table_words,
                                  const uint64_t *kept, size_t kept_words,
                                  uint32_t *list, size_t list_words);
FORGELILAC_CHECKED FORGELILAC_READS(1, 2) FORGELILAC_CHANGES(3, 4) FORGELILAC_READS(5, 6) FORGELILAC_WRITES(7, 8)
uint64_t forgelilac_owned_critical(const uint32_t *state, size_t state_words,
                                   uint32_t *table, size_t table_words,
                                   const uint64_t *kept, size_t kept_words,
                                   uint32_t *list, size_t list_words);
FORGELILAC_CHECKED FORGELILAC_READS(1, 2) FORGELILAC_READS(3, 4) FORGELILAC_READS(5, 6) FORGELILAC_WRITES(8, 9)
uint32_t forgelilac_owned_committee(const uint32_t *state, size_t state_words,
                                    const uint32_t *table, size_t table_words,
                                    const uint64_t *kept, size_t kept_words,
                                    uint32_t round, uint32_t *out, size_t out_words);
FORGELILAC_CHECKED FORGELILAC_READS(1, 2) FORGELILAC_READS(3, 4) FORGELILAC_READS(5, 6)
uint64_t forgelilac_owned_share(const uint32_t *state, size_t state_words,
                                const uint32_t *table, size_t table_words,
                                const uint64_t *kept, size_t kept_words,
                                uint32_t member, uint32_t round);
FORGELILAC_CHECKED FORGELILAC_READS(1, 2) FORGELILAC_READS(3, 4) FORGELILAC_READS(5, 6) FORGELILAC_WRITES(10, 11)
uint32_t forgelilac_owned_bond_effect(const uint32_t *state, size_t state_words,
                                      const uint32_t *table, size_t table_words,
                                      const uint64_t *kept, size_t kept_words,
                                      uint32_t member, uint32_t round, uint32_t amount, uint32_t *out,
                                      size_t out_words);
FORGELILAC_CHECKED FORGELILAC_READS(1, 2) FORGELILAC_READS(3, 4) FORGELILAC_READS(5, 6) FORGELILAC_WRITES(9, 10)
uint32_t forgelilac_owned_certificate(const uint32_t *state, size_t state_words,
                                      const uint32_t *table, size_t table_words,
                                      const uint64_t *kept, size_t kept_words,
                                      uint32_t author, uint32_t round, uint32_t *out, size_t out_words);
FORGELILAC_CHECKED FORGELILAC_READS(1, 2) FORGELILAC_READS(3, 4) FORGELILAC_READS(5, 6)
uint64_t forgelilac_owned_block(const uint32_t *state, size_t state_words,
                                const uint32_t *table, size_t table_words,
                                const uint64_t *kept, size_t kept_words,
                                uint32_t number);
FORGELILAC_CHECKED FORGELILAC_READS(1, 2) FORGELILAC_READS(3, 4) FORGELILAC_READS(5, 6) FORGELILAC_WRITES(9, 10)
uint64_t forgelilac_owned_block_rows(const uint32_t *state, size_t state_words,
                                     const uint32_t *table, size_t table_words,
                                     const uint64_t *kept, size_t kept_words,
                                     uint32_t known, uint32_t number, uint32_t *list, size_t list_words);

/* Calls of guests, each as that without owned_: 26 and 29 before everything else. Rights: propose. */
FORGELILAC_CHECKED FORGELILAC_CHANGES(2, 3) FORGELILAC_READS(4, 5) FORGELILAC_READS(6, 7) FORGELILAC_READS(8, 9)
uint32_t forgelilac_owned_guest_propose(uint32_t caller,
                                        uint32_t *state, size_t state_words,
                                        const uint32_t *table, size_t table_words,
                                        const uint64_t *kept, size_t kept_words,
                                        const uint32_t *body, size_t body_words);
FORGELILAC_CHECKED FORGELILAC_CHANGES(2, 3) FORGELILAC_CHANGES(4, 5) FORGELILAC_READS(6, 7)
uint32_t forgelilac_owned_guest_draw(uint32_t caller,
                                     uint32_t *state, size_t state_words,
                                     uint32_t *table, size_t table_words,
                                     const uint64_t *kept, size_t kept_words,
                                     uint32_t previous);
FORGELILAC_CHECKED FORGELILAC_READS(2, 3) FORGELILAC_CHANGES(4, 5) FORGELILAC_READS(6, 7) FORGELILAC_READS(8, 9)
uint32_t forgelilac_owned_guest_enqueue(uint32_t caller,
                                        const uint32_t *state, size_t state_words,
                                        uint32_t *table, size_t table_words,
                                        const uint64_t *kept, size_t kept_words,
                                        const uint32_t *transaction, size_t transaction_words);
/* Right: sign. */
FORGELILAC_CHECKED FORGELILAC_READS(2, 3) FORGELILAC_CHANGES(4, 5) FORGELILAC_READS(6, 7) FORGELILAC_READS(8, 9)
uint32_t forgelilac_owned_guest_endorse(uint32_t caller,
                                        const uint32_t *state, size_t state_words,
                                        uint32_t *table, size_t table_words,
                                        const uint64_t *kept, size_t kept_words,
                                        const uint32_t *proposal, size_t proposal_words);
FORGELILAC_CHECKED FORGELILAC_READS(2, 3) FORGELILAC_CHANGES(4, 5) FORGELILAC_READS(6, 7)
uint32_t forgelilac_owned_guest_certify(uint32_t caller,
                                        const uint32_t *state, size_t state_words,
                                        uint32_t *table, size_t table_words,
                                        const uint64_t *kept, size_t kept_words,
                                        uint32_t endorsers);
FORGELILAC_CHECKED FORGELILAC_READS(2, 3) FORGELILAC_CHANGES(4, 5) FORGELILAC_READS(6, 7) FORGELILAC_READS(8, 9)
uint32_t forgelilac_owned_guest_accept(uint32_t caller,
                                       const uint32_t *state, size_t state_words,
                                       uint32_t *table, size_t table_words,
                                       const uint64_t *kept, size_t kept_words,
                                       const uint32_t *certificate, size_t certificate_words);
FORGELILAC_CHECKED FORGELILAC_READS(2, 3) FORGELILAC_CHANGES(4, 5) FORGELILAC_READS(6, 7) FORGELILAC_READS(8, 9)
FORGELILAC_WRITES(10, 11)
uint32_t forgelilac_owned_guest_batch(uint32_t caller,
                                      const uint32_t *state, size_t state_words,
                                      uint32_t *table, size_t table_words,
                                      const uint64_t *kept, size_t kept_words,
                                      const struct forgelilac_certificate *row, size_t row_count,
                                      uint32_t *answers, size_t answers_words);
/* Right: drive. */
FORGELILAC_CHECKED FORGELILAC_CHANGES(2, 3) FORGELILAC_READS(4, 5) FORGELILAC_READS(6, 7)
uint32_t forgelilac_owned_guest_advance(uint32_t caller,
                                        uint32_t *state, size_t state_words,
                                        const uint32_t *table, size_t table_words,
                                        const uint64_t *kept, size_t kept_words);
FORGELILAC_CHECKED FORGELILAC_CHANGES(2, 3) FORGELILAC_CHANGES(4, 5) FORGELILAC_CHANGES(6, 7)
uint64_t forgelilac_owned_guest_commit(uint32_t caller,
                                       uint32_t *state, size_t state_words,
                                       uint32_t *table, size_t table_words,
                                       uint64_t *kept, size_t kept_words);
/* Right: read. The last two are accesses to the caller's own port. */
FORGELILAC_CHECKED FORGELILAC_READS(2, 3) FORGELILAC_READS(4, 5) FORGELILAC_READS(6, 7) FORGELILAC_WRITES(8, 9)
uint64_t forgelilac_owned_guest_preview(uint32_t caller,
                                        const uint32_t *state, size_t state_words,
                                        const uint32_t *table, size_t table_words,
                                        const uint64_t *kept, size_t kept_words,
                                        uint32_t *list, size_t list_words);
FORGELILAC_CHECKED FORGELILAC_READS(2, 3) FORGELILAC_CHANGES(4, 5) FORGELILAC_READS(6, 7) FORGELILAC_WRITES(8, 9)
uint64_t forgelilac_owned_guest_critical(uint32_t caller,
                                         const uint32_t *state, size_t state_words,
                                         uint32_t *table, size_t table_words,
                                         const uint64_t *kept, size_t kept_words,
                                         uint32_t *list, size_t list_words);
FORGELILAC_CHECKED FORGELILAC_READS(2, 3) FORGELILAC_READS(4, 5) FORGELILAC_READS(6, 7) FORGELILAC_WRITES(9, 10)
uint32_t forgelilac_owned_guest_committee(uint32_t caller,
                                          const uint32_t *state, size_t state_words,
                                          const uint32_t *table, size_t table_words,
                                          const uint64_t *kept, size_t kept_words,
                                          uint32_t round, uint32_t *out, size_t out_words);
FORGELILAC_CHECKED FORGELILAC_READS(2, 3) FORGELILAC_READS(4, 5) FORGELILAC_READS(6, 7)
uint64_t forgelilac_owned_guest_share(uint32_t caller,
                                      const uint32_t *state, size_t state_words,
                                      const uint32_t *table, size_t table_words,
                                      const uint64_t *kept, size_t kept_words,
                                      uint32_t member, uint32_t round);
FORGELILAC_CHECKED FORGELILAC_READS(2, 3) FORGELILAC_READS(4, 5) FORGELILAC_READS(6, 7) FORGELILAC_WRITES(11, 12)
uint32_t forgelilac_owned_guest_bond_effect(uint32_t caller,
                                            const uint32_t *state, size_t state_words,
                                            const uint32_t *table, size_t table_words,
                                            const uint64_t *kept, size_t kept_words,
                                            uint32_t member, uint32_t round, uint32_t amount,
                                            uint32_t *out, size_t out_words);
FORGELILAC_CHECKED FORGELILAC_READS(2, 3) FORGELILAC_READS(4, 5) FORGELILAC_READS(6, 7) FORGELILAC_WRITES(10, 11)
uint32_t forgelilac_owned_guest_certificate(uint32_t caller,
                                            const uint32_t *state, size_t state_words,
                                            const uint32_t *table, size_t table_words,
                                            const uint64_t *kept, size_t kept_words,
                                            uint32_t author, uint32_t round, uint32_t *out,
                                            size_t out_words);
FORGELILAC_CHECKED FORGELILAC_READS(2, 3) FORGELILAC_READS(4, 5) FORGELILAC_READS(6, 7)
uint64_t forgelilac_owned_guest_block(uint32_t caller,
                                      const uint32_t *state, size_t state_words,
                                      const uint32_t *table, size_t table_words,
                                      const uint64_t *kept, size_t kept_words,
                                      uint32_t number);
FORGELILAC_CHECKED FORGELILAC_READS(2, 3) FORGELILAC_READS(4, 5) FORGELILAC_READS(6, 7) FORGELILAC_WRITES(10, 11)
uint64_t forgelilac_owned_guest_block_rows(uint32_t caller,
                                           const uint32_t *state, size_t state_words,
                                           const uint32_t *table, size_t table_words,
                                           const uint64_t *kept, size_t kept_words,
                                           uint32_t known, uint32_t number, uint32_t *list,
                                           size_t list_words);
FORGELILAC_CHECKED FORGELILAC_READS(2, 3) FORGELILAC_CHANGES(4, 5) FORGELILAC_READS(6, 7)
uint64_t forgelilac_owned_guest_port_read(uint32_t caller,
                                          const uint32_t *state, size_t state_words,
                                          uint32_t *table, size_t table_words,
                                          const uint64_t *kept, size_t kept_words,
                                          uint32_t offset);
FORGELILAC_CHECKED FORGELILAC_READS(2, 3) FORGELILAC_CHANGES(4, 5) FORGELILAC_READS(6, 7)
uint32_t forgelilac_owned_guest_port_write(uint32_t caller,
                                           const uint32_t *state, size_t state_words,
                                           uint32_t *table, size_t table_words,
                                           const uint64_t *kept, size_t kept_words,
                                           uint32_t offset, uint8_t value);

/* ---- answers */

/* An answer of 64 bits: its value, and beside it why there is none. */
struct forgelilac_answer {
    uint32_t refusal; /* FORGELILAC_ACCEPTED, or the refusal number */
    uint32_t value;   /* 0 where refused */
};

/* The value of an answer of 64 bits: its low half. */
static inline uint32_t forgelilac_value_of(uint64_t answer) {
    return (uint32_t)(answer & 0xffffffffu);
}

/* The refusal number of an answer of 64 bits, 0 where it was accepted: its high half. */
static inline uint32_t forgelilac_refusal_of(uint64_t answer) {
    return (uint32_t)(answer >> 32);
}

/* Both halves of an answer of 64 bits. */
FORGELILAC_CHECKED
static inline struct forgelilac_answer forgelilac_answer_of(uint64_t answer) {
    struct forgelilac_answer both;
    both.refusal = forgelilac_refusal_of(answer);
    both.value = forgelilac_value_of(answer);
    return both;
}

/* A refusal number in words. 24 is the runner's alone: no function here answers it. */
FORGELILAC_CHECKED
static inline const char *forgelilac_refusal_text(uint32_t number) {
    static const char *const texts[32] = {
        "accepted",
        "state not well formed, a table too short, or words that cannot be read",
        "setting out of range",
        "no positive weight",
        "member above 15",
        "round 0 or over the ceiling",
        "a transaction out of range or over the allowance",
        "previous set empty above round 1, or not empty in it",
        "committee of the round unknown",
        "own number, a signer or the member asked for outside the committee",
        "a proposal exists, place held or already endorsed",
        "a named previous certificate not held",
        "previous set no quorum of the round before",
        "signers short of a quorum",
        "endorse: author is oneself; certify: oneself among them; accept: author among endorsers",
        "no proposal this round",
        "the same certificate held",
        "another certificate held there",
        "at the ceiling",
        "the present round is even or 1",
        "last block's round at least the round before",
        "no anchor in the round before",
        "votes weigh not more than the fault bound",
        "no such certificate or block",
        "record unreadable",
        "batch: a row over 64, or answers shorter than the row; preview: a list with fewer than 16 places per round of the ceiling; critical: a list with fewer than 32 places; block rows: a list without room for the blocks' certificates",
        "guest, caller or port above 7",
        "the queue holds eight transactions",
        "the authors of the certificates held in the present round form no quorum of its committee",
        "the caller lacks the right that the call needs",
        "committee of the round empty",
        "offset above 7",
    };
    return number < 32 ? texts[number] : "no refusal of this version";
}

/* ---- rights, sheets, bodies, proposals, queues, records */

/* 1 where the caller has the right (FORGELILAC_RIGHT_...), else 0, also for a caller above 7 and where
 * the stretch ends before the word of the rights. A word of the state and no call: it can be read in any
 * state. The guests' forms ask for themselves. */
FORGELILAC_CHECKED FORGELILAC_READS(1, 2)
static inline int forgelilac_may(const uint32_t *state, size_t state_words,
                                 uint32_t caller, unsigned right) {
    return state_words > FORGELILAC_STATE_RIGHTS && right <= FORGELILAC_RIGHT_READ
           && caller < FORGELILAC_GUESTS
           && (state[FORGELILAC_STATE_RIGHTS] >> (8 * right + caller) & 1) == 1;
}

/* All settings blank. */
FORGELILAC_POINTERS
static inline void forgelilac_blank_sheet(uint32_t sheet[FORGELILAC_SHEET_WORDS]) {
    for (int i = 0; i < FORGELILAC_SHEET_WORDS; i++) sheet[i] = 0;
}

/* No setting can be read in this sheet any more, and none is written to it: open answers 1. */
FORGELILAC_POINTERS
static inline uint32_t forgelilac_spoil_sheet(uint32_t sheet[FORGELILAC_SHEET_WORDS], uint32_t refusal) {
    sheet[0] = 2; /* neither blank nor written */
    return refusal;
}

/* Writes setting 0 to 19 (FORGELILAC_LOOKBACK and so on), and answers 0. There is no other: 2, and the
 * sheet is spoiled, so that open answers 1 where nobody looks at this answer. */
FORGELILAC_POINTERS
static inline uint32_t forgelilac_write_setting(uint32_t sheet[FORGELILAC_SHEET_WORDS],
                                                unsigned setting, uint32_t value) {
    if (setting > FORGELILAC_MARGIN || sheet[0] > 1) return forgelilac_spoil_sheet(sheet, FORGELILAC_SETTING_RANGE);
    sheet[2 * setting] = 1;
    sheet[2 * setting + 1] = value;
    return FORGELILAC_ACCEPTED;
}

/* Writes the starting weight of member 0 to 15, and answers 0. There is no other: 4, and the sheet is
 * spoiled likewise. */
FORGELILAC_POINTERS
static inline uint32_t forgelilac_write_weight(uint32_t sheet[FORGELILAC_SHEET_WORDS],
                                               uint32_t member, uint32_t weight) {
    if (member >= FORGELILAC_MEMBERS) return forgelilac_spoil_sheet(sheet, FORGELILAC_MEMBER_RANGE);
    /* the weights' places come right before the margin's */
    return forgelilac_write_setting(sheet, FORGELILAC_MARGIN - FORGELILAC_MEMBERS + member, weight);
}

/* A body with this previous set and no transactions. */
FORGELILAC_POINTERS
static inline void forgelilac_begin_body(uint32_t body[FORGELILAC_BODY_WORDS], uint32_t previous) {
    for (int i = 0; i < FORGELILAC_BODY_WORDS; i++) body[i] = 0;
    body[FORGELILAC_BODY_PREVIOUS] = previous;
}

/* Adds a transaction. A fifth is counted and not written: propose then answers 6. */
FORGELILAC_POINTERS
static inline void forgelilac_add(uint32_t body[FORGELILAC_BODY_WORDS], uint32_t kind,
                                  uint32_t number, uint32_t amount) {
    uint32_t count = body[FORGELILAC_BODY_COUNT];
    if (count > FORGELILAC_TRANSACTIONS) return;
    if (count < FORGELILAC_TRANSACTIONS) {
        uint32_t *at = body + FORGELILAC_BODY_TRANSACTIONS + 3 * count;
        at[0] = kind;
        at[1] = number;
        at[2] = amount;
    }
    body[FORGELILAC_BODY_COUNT] = count + 1;
}

/* Adds a bond of a member by an amount of 1 to 1,000. */
FORGELILAC_POINTERS
static inline void forgelilac_add_bond(uint32_t body[FORGELILAC_BODY_WORDS],
                                       uint32_t member, uint32_t amount) {
    forgelilac_add(body, FORGELILAC_BOND, member, amount);
}

/* Adds an unbond of a member. */
FORGELILAC_POINTERS
static inline void forgelilac_add_unbond(uint32_t body[FORGELILAC_BODY_WORDS], uint32_t member) {
    forgelilac_add(body, FORGELILAC_UNBOND, member, 0);
}

/* Adds an entry: any number. */
FORGELILAC_POINTERS
static inline void forgelilac_add_entry(uint32_t body[FORGELILAC_BODY_WORDS], uint32_t number) {
    forgelilac_add(body, FORGELILAC_ENTRY, number, 0);
}

/* The proposal that a state keeps, for sending: 1, or 0 where there is none. */
FORGELILAC_CHECKED FORGELILAC_POINTERS
static inline int forgelilac_own_proposal(const uint32_t state[FORGELILAC_STATE_WORDS],
                                          uint32_t proposal[FORGELILAC_PROPOSAL_WORDS]) {
    if (state[FORGELILAC_STATE_PROPOSED] == 0) return 0;
    proposal[FORGELILAC_PROPOSAL_AUTHOR] = state[FORGELILAC_STATE_OWN];
    proposal[FORGELILAC_PROPOSAL_ROUND] = state[FORGELILAC_STATE_ROUND];
    for (int i = 0; i < FORGELILAC_BODY_WORDS; i++)
        proposal[FORGELILAC_PROPOSAL_BODY + i] = state[FORGELILAC_STATE_BODY + i];
    return 1;
}

/* How many transactions wait in the queue of a guest, 0 for a guest above 7. A word of the table and
 * no call: ask forgelilac_is_well_formed first where something else may have written the words. */
FORGELILAC_CHECKED FORGELILAC_POINTERS
static inline uint32_t forgelilac_waiting(const uint32_t *table, uint32_t guest) {
    return guest < FORGELILAC_GUESTS ? table[FORGELILAC_WAITING + guest] : 0;
}

/* The words of a certificate as a record of a row. The first 17 words of the certificate read serve. */
FORGELILAC_CHECKED FORGELILAC_POINTERS
static inline struct forgelilac_certificate
forgelilac_record_of(const uint32_t words[FORGELILAC_CERTIFICATE_WORDS]) {
    struct forgelilac_certificate record;
    record.author = words[FORGELILAC_PROPOSAL_AUTHOR];
    record.round = words[FORGELILAC_PROPOSAL_ROUND];
    for (int i = 0; i < FORGELILAC_BODY_WORDS; i++) record.body[i] = words[FORGELILAC_PROPOSAL_BODY + i];
    record.endorsers = words[FORGELILAC_CERTIFICATE_ENDORSERS];
    return record;
}

/* The text of a number of enum forgelilac_storing_refusal. */
FORGELILAC_CHECKED
static inline const char *forgelilac_storing_text(uint32_t number) {
    switch (number) {
    case 0: return "done";
    case FORGELILAC_UNREADABLE_WORDS: return "words that cannot be read, or a table that is too short";
    case FORGELILAC_NO_ROOM: return "too few bytes or words to write to";
    case FORGELILAC_OTHER_MARK: return "no stored member";
    case FORGELILAC_OTHER_FORMAT: return "stored in another format";
    case FORGELILAC_TORN: return "torn: another length or another digest";
    case FORGELILAC_OTHER_MEMBER: return "stored by another member";
    case FORGELILAC_OTHER_RUN: return "stored in another run";
    default: return "no number of storing";
    }
}

/* ---- over the reads: nothing is decided here */

/* 1 where the state is well formed, else 0: whether calls but open would answer other than 1.
 * For words that come from storage, behind a check of their bytes: this is none (docs/HOSTS.md,
 * "Stored words"). */
FORGELILAC_CHECKED FORGELILAC_READS(1, 2) FORGELILAC_READS(3, 4)
static inline int forgelilac_is_well_formed(const uint32_t *state, size_t state_words,
                                            const uint32_t *table, size_t table_words) {
    /* There is no block 0: 23, unless the state is not well formed. */
    return forgelilac_format_3() == FORGELILAC_FORMAT
           && forgelilac_refusal_of(forgelilac_block(state, state_words, table, table_words, 0))
                  == FORGELILAC_NONE_THERE;
}

/* The leader of an even round, by the weights of its committee: of the m members by rising number,
 * the one at position (round / 2) mod m. An empty committee has none, and so has an odd round or
 * round 0: FORGELILAC_MEMBERS. */
FORGELILAC_CHECKED FORGELILAC_POINTERS
static inline uint32_t forgelilac_leader(uint32_t round, const uint32_t weights[FORGELILAC_MEMBERS]) {
    return forgelilac_leader_of(round, weights, FORGELILAC_MEMBERS);
}

/* For forgelilac_chain: how many blocks a state has, by its word. */
static inline uint32_t forgelilac_blocks_of(const uint32_t *state, size_t state_words) {
    return state_words > FORGELILAC_STATE_BLOCKS ? state[FORGELILAC_STATE_BLOCKS] : 0;
}

/* For forgelilac_chain: of each certificate that block rows have listed, block, round and author alone. */
static inline uint64_t forgelilac_shorten(uint64_t answer, uint32_t *out) {
    const uint32_t *row = out, *end = out + (size_t)FORGELILAC_HELD_WORDS * forgelilac_value_of(answer);
    for (; row < end; row += FORGELILAC_HELD_WORDS, out += FORGELILAC_LISTED_WORDS) {
        const uint32_t author = row[FORGELILAC_PROPOSAL_AUTHOR], round = row[FORGELILAC_PROPOSAL_ROUND];
        out[FORGELILAC_LISTED_BLOCK] = row[FORGELILAC_HELD_BLOCK];
        out[FORGELILAC_LISTED_ROUND] = round;
        out[FORGELILAC_LISTED_AUTHOR] = author;
    }
    return answer;
}

/* The chain into out: number of its block, round and author of each of its certificates, three
 * words each, in the order of the chain: the rows of all blocks, shortened. It asks for the room of
 * those rows, 18 words for each certificate (FORGELILAC_CHAIN_WORDS(ceiling) always serve), and what
 * lies behind what is listed is not as it was, as far as that room goes. What certificates hold, and
 * what is new since, forgelilac_block_rows gives in one read. Low half: how many are listed. High half:
 * refusal number. Refused, it changes no word. 1, 25. */
FORGELILAC_CHECKED FORGELILAC_READS(1, 2) FORGELILAC_READS(3, 4) FORGELILAC_WRITES(5, 6)
static inline uint64_t forgelilac_chain(const uint32_t *state, size_t state_words,
                                        const uint32_t *table, size_t table_words,
                                        uint32_t *out, size_t out_words) {
    return forgelilac_shorten(forgelilac_block_rows(state, state_words, table, table_words, 0,
                                                    forgelilac_blocks_of(state, state_words), out, out_words),
                              out);
}

/* The chain for a guest; right: read. 26, 29, then as forgelilac_chain. */
FORGELILAC_CHECKED FORGELILAC_READS(2, 3) FORGELILAC_READS(4, 5) FORGELILAC_WRITES(6, 7)
static inline uint64_t forgelilac_guest_chain(uint32_t caller,
                                              const uint32_t *state, size_t state_words,
                                              const uint32_t *table, size_t table_words,
                                              uint32_t *out, size_t out_words) {
    return forgelilac_shorten(forgelilac_guest_block_rows(caller, state, state_words, table, table_words, 0,
                                                          forgelilac_blocks_of(state, state_words), out, out_words),
                              out);
}

/* The chain of owned words: as forgelilac_chain, by forgelilac_owned_block_rows. */
FORGELILAC_CHECKED FORGELILAC_READS(1, 2) FORGELILAC_READS(3, 4) FORGELILAC_READS(5, 6) FORGELILAC_WRITES(7, 8)
static inline uint64_t forgelilac_owned_chain(const uint32_t *state, size_t state_words,
                                              const uint32_t *table, size_t table_words,
                                              const uint64_t *kept, size_t kept_words,
                                              uint32_t *out, size_t out_words) {
    return forgelilac_shorten(forgelilac_owned_block_rows(state, state_words, table, table_words, kept, kept_words, 0,
                                                          forgelilac_blocks_of(state, state_words), out, out_words),
                              out);
}

/* The same for a guest; right: read. 26, 29, then as forgelilac_chain. */
FORGELILAC_CHECKED FORGELILAC_READS(2, 3) FORGELILAC_READS(4, 5) FORGELILAC_READS(6, 7) FORGELILAC_WRITES(8, 9)
static inline uint64_t forgelilac_owned_guest_chain(uint32_t caller,
                                                    const uint32_t *state, size_t state_words,
                                                    const uint32_t *table, size_t table_words,
                                                    const uint64_t *kept, size_t kept_words,
                                                    uint32_t *out, size_t out_words) {
    return forgelilac_shorten(forgelilac_owned_guest_block_rows(caller, state, state_words, table, table_words,
                                                                kept, kept_words, 0,
                                                                forgelilac_blocks_of(state, state_words),
                                                                out, out_words),
                              out);
}

/* ---- answers of 64 bits as struct forgelilac_answer, where FORGELILAC_ANSWERS was defined (C99, C++11) */

#ifdef FORGELILAC_ANSWERS
#define forgelilac_commit(...) forgelilac_answer_of(forgelilac_commit(__VA_ARGS__))
#define forgelilac_preview(...) forgelilac_answer_of(forgelilac_preview(__VA_ARGS__))
#define forgelilac_critical(...) forgelilac_answer_of(forgelilac_critical(__VA_ARGS__))
#define forgelilac_share(...) forgelilac_answer_of(forgelilac_share(__VA_ARGS__))
#define forgelilac_block(...) forgelilac_answer_of(forgelilac_block(__VA_ARGS__))
#define forgelilac_block_rows(...) forgelilac_answer_of(forgelilac_block_rows(__VA_ARGS__))
#define forgelilac_chain(...) forgelilac_answer_of(forgelilac_chain(__VA_ARGS__))
#define forgelilac_guest_commit(...) forgelilac_answer_of(forgelilac_guest_commit(__VA_ARGS__))
#define forgelilac_guest_preview(...) forgelilac_answer_of(forgelilac_guest_preview(__VA_ARGS__))
#define forgelilac_guest_critical(...) forgelilac_answer_of(forgelilac_guest_critical(__VA_ARGS__))
#define forgelilac_guest_share(...) forgelilac_answer_of(forgelilac_guest_share(__VA_ARGS__))
#define forgelilac_guest_block(...) forgelilac_answer_of(forgelilac_guest_block(__VA_ARGS__))
#define forgelilac_guest_block_rows(...) forgelilac_answer_of(forgelilac_guest_block_rows(__VA_ARGS__))
#define forgelilac_guest_chain(...) forgelilac_answer_of(forgelilac_guest_chain(__VA_ARGS__))
#define forgelilac_guest_port_read(...) forgelilac_answer_of(forgelilac_guest_port_read(__VA_ARGS__))
#define forgelilac_owned_commit(...) forgelilac_answer_of(forgelilac_owned_commit(__VA_ARGS__))
#define forgelilac_owned_preview(...) forgelilac_answer_of(forgelilac_owned_preview(__VA_ARGS__))
#define forgelilac_owned_critical(...) forgelilac_answer_of(forgelilac_owned_critical(__VA_ARGS__))
#define forgelilac_owned_share(...) forgelilac_answer_of(forgelilac_owned_share(__VA_ARGS__))
#define forgelilac_owned_block(...) forgelilac_answer_of(forgelilac_owned_block(__VA_ARGS__))
#define forgelilac_owned_block_rows(...) forgelilac_answer_of(forgelilac_owned_block_rows(__VA_ARGS__))
#define forgelilac_owned_guest_commit(...) forgelilac_answer_of(forgelilac_owned_guest_commit(__VA_ARGS__))
#define forgelilac_owned_guest_preview(...) forgelilac_answer_of(forgelilac_owned_guest_preview(__VA_ARGS__))
#define forgelilac_owned_guest_critical(...) forgelilac_answer_of(forgelilac_owned_guest_critical(__VA_ARGS__))
#define forgelilac_owned_guest_share(...) forgelilac_answer_of(forgelilac_owned_guest_share(__VA_ARGS__))
#define forgelilac_owned_guest_block(...) forgelilac_answer_of(forgelilac_owned_guest_block(__VA_ARGS__))
#define forgelilac_owned_guest_block_rows(...) forgelilac_answer_of(forgelilac_owned_guest_block_rows(__VA_ARGS__))
#define forgelilac_owned_chain(...) forgelilac_answer_of(forgelilac_owned_chain(__VA_ARGS__))
#define forgelilac_owned_guest_chain(...) forgelilac_answer_of(forgelilac_owned_guest_chain(__VA_ARGS__))
#define forgelilac_owned_guest_port_read(...) forgelilac_answer_of(forgelilac_owned_guest_port_read(__VA_ARGS__))
#endif

#ifdef __cplusplus
}
#endif

#endif
