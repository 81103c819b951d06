/* Functions of the header that have no symbol, for the tests in Rust. */
#include "forgelilac.h"

uint64_t header_chain(const uint32_t *state, size_t state_words, const uint32_t *table, size_t table_words,
                      uint32_t *out, size_t out_words);
uint64_t header_guest_chain(uint32_t caller, const uint32_t *state, size_t state_words, const uint32_t *table,
                            size_t table_words, uint32_t *out, size_t out_words);
int header_is_well_formed(const uint32_t *state, size_t state_words, const uint32_t *table, size_t table_words);
int header_may(const uint32_t *state, size_t state_words, unsigned right, uint32_t caller);
uint32_t header_rights(uint32_t propose, uint32_t sign, uint32_t drive, uint32_t read);
uint32_t header_leader(uint32_t round, const uint32_t *weights);
const char *header_refusal_text(uint32_t number);
const char *header_version(void);
uint32_t header_version_number(void);
uint32_t header_answer_of(uint64_t answer, uint32_t *value);
uint32_t header_write(uint32_t *sheet, int by_member, uint32_t place, uint32_t value);
void header_record_of(const uint32_t *words, struct forgelilac_certificate *record);
uint32_t header_waiting(const uint32_t *table, uint32_t guest);
uint64_t header_preview(const uint32_t *state, size_t state_words, const uint32_t *table, size_t table_words,
                        uint32_t *list, size_t list_words);
uint64_t header_critical(const uint32_t *state, size_t state_words, uint32_t *table, size_t table_words,
                         uint32_t *list, size_t list_words);
uint32_t header_bond_effect(const uint32_t *state, size_t state_words, const uint32_t *table, size_t table_words,
                            uint32_t member, uint32_t round, uint32_t amount, uint32_t *out, size_t out_words);
uint64_t header_guest_port_read(uint32_t caller, const uint32_t *state, size_t state_words,
                                uint32_t *table, size_t table_words, uint32_t offset);
uint32_t header_guest_port_write(uint32_t caller, const uint32_t *state, size_t state_words,
                                 uint32_t *table, size_t table_words, uint32_t offset, uint8_t value);
uint32_t header_port_reset(const uint32_t *state, size_t state_words, uint32_t *table, size_t table_words,
                           uint32_t port);
uint32_t header_number(uint32_t which);

uint64_t header_chain(const uint32_t *state, size_t state_words, const uint32_t *table, size_t table_words,
                      uint32_t *out, size_t out_words) {
    return forgelilac_chain(state, state_words, table, table_words, out, out_words);
}

uint64_t header_guest_chain(uint32_t caller, const uint32_t *state, size_t state_words, const uint32_t *table,
                            size_t table_words, uint32_t *out, size_t out_words) {
    return forgelilac_guest_chain(caller, state, state_words, table, table_words, out, out_words);
}

int header_is_well_formed(const uint32_t *state, size_t state_words, const uint32_t *table, size_t table_words) {
    return forgelilac_is_well_formed(state, state_words, table, table_words);
}

int header_may(const uint32_t *state, size_t state_words, uint32_t caller, unsigned right) {
    return forgelilac_may(state, state_words, caller, right);
}

uint32_t header_rights(uint32_t propose, uint32_t sign, uint32_t drive, uint32_t read) {
    return FORGELILAC_RIGHTS(propose, sign, drive, read);
}

uint32_t header_leader(uint32_t round, const uint32_t *weights) { return forgelilac_leader(round, weights); }

const char *header_refusal_text(uint32_t number) { return forgelilac_refusal_text(number); }

const char *header_version(void) { return FORGELILAC_VERSION; }

uint32_t header_version_number(void) { return FORGELILAC_VERSION_NUMBER; }

uint32_t header_answer_of(uint64_t answer, uint32_t *value) {
    struct forgelilac_answer both = forgelilac_answer_of(answer);
    *value = both.value;
    return both.refusal;
}

/* A setting, or where by_member is set a member's weight. */
uint32_t header_write(uint32_t *sheet, int by_member, uint32_t place, uint32_t value) {
    return by_member ? forgelilac_write_weight(sheet, place, value) : forgelilac_write_setting(sheet, place, value);
}

void header_record_of(const uint32_t *words, struct forgelilac_certificate *record) {
    *record = forgelilac_record_of(words);
}

uint32_t header_waiting(const uint32_t *table, uint32_t guest) { return forgelilac_waiting(table, guest); }

uint64_t header_preview(const uint32_t *state, size_t state_words, const uint32_t *table, size_t table_words,
                        uint32_t *list, size_t list_words) {
    return forgelilac_preview(state, state_words, table, table_words, list, list_words);
}

uint64_t header_critical(const uint32_t *state, size_t state_words, uint32_t *table, size_t table_words,
                         uint32_t *list, size_t list_words) {
    return forgelilac_critical(state, state_words, table, table_words, list, list_words);
}

uint32_t header_bond_effect(const uint32_t *state, size_t state_words, const uint32_t *table, size_t table_words,
                            uint32_t member, uint32_t round, uint32_t amount, uint32_t *out, size_t out_words) {
    return forgelilac_bond_effect(state, state_words, table, table_words, member, round, amount, out, out_words);
}

uint64_t header_guest_port_read(uint32_t caller, const uint32_t *state, size_t state_words,
                                uint32_t *table, size_t table_words, uint32_t offset) {
    return forgelilac_guest_port_read(caller, state, state_words, table, table_words, offset);
}

uint32_t header_guest_port_write(uint32_t caller, const uint32_t *state, size_t state_words,
                                 uint32_t *table, size_t table_words, uint32_t offset, uint8_t value) {
    return forgelilac_guest_port_write(caller, state, state_words, table, table_words, offset, value);
}

uint32_t header_port_reset(const uint32_t *state, size_t state_words, uint32_t *table, size_t table_words,
                           uint32_t port) {
    return forgelilac_port_reset(state, state_words, table, table_words, port);
}

/* Lengths and offsets, in the order of NUMBERS in chains.rs. */
uint32_t header_number(uint32_t which) {
    static const uint32_t numbers[] = {
        FORGELILAC_FORMAT, FORGELILAC_MEMBERS, FORGELILAC_TRANSACTIONS, FORGELILAC_BLOCKS, FORGELILAC_STACK_BYTES,
        FORGELILAC_STATE_WORDS, FORGELILAC_BODY_WORDS, FORGELILAC_PROPOSAL_WORDS, FORGELILAC_CERTIFICATE_WORDS,
        FORGELILAC_HELD_WORDS, FORGELILAC_SHEET_WORDS, FORGELILAC_STATE_OWN, FORGELILAC_STATE_LOOKBACK,
        FORGELILAC_STATE_CEILING, FORGELILAC_STATE_ALLOWANCE, FORGELILAC_STATE_WEIGHTS, FORGELILAC_STATE_ROUND,
        FORGELILAC_STATE_PROPOSED, FORGELILAC_STATE_BLOCKS, FORGELILAC_STATE_BODY, FORGELILAC_ROW_WORDS,
        FORGELILAC_ROW_HELD, FORGELILAC_ROW_ENDORSED, FORGELILAC_ROW_BLOCK, FORGELILAC_ROW_RECORDS,
        FORGELILAC_RECORD_WORDS, FORGELILAC_RECORD_PREVIOUS, FORGELILAC_RECORD_COUNT, FORGELILAC_RECORD_BLOCK,
        FORGELILAC_RECORD_ENDORSERS, FORGELILAC_RECORD_TRANSACTIONS, (uint32_t)FORGELILAC_ROW(7u),
        (uint32_t)FORGELILAC_RECORD(5u, 7u), FORGELILAC_TABLE_WORDS(64u), FORGELILAC_CHAIN_WORDS(64u),
        FORGELILAC_BATCH_RECORDS, (uint32_t)sizeof(struct forgelilac_certificate), FORGELILAC_GUESTS,
        FORGELILAC_QUEUE_PLACES, FORGELILAC_TRANSACTION_WORDS, FORGELILAC_SERVED, FORGELILAC_WAITING,
        FORGELILAC_QUEUE(0u), FORGELILAC_QUEUE(7u), FORGELILAC_ENTRY_WORDS, FORGELILAC_ENTRY_BLOCK,
        FORGELILAC_ENTRY_ROUND, FORGELILAC_ENTRY_AUTHOR, FORGELILAC_PREVIEW_WORDS(64u), FORGELILAC_STATE_MARGIN,
        2 * FORGELILAC_MARGIN + 2, FORGELILAC_PLACE_WORDS, FORGELILAC_PLACE_ROUND, FORGELILAC_PLACE_AUTHOR,
        FORGELILAC_CRITICAL_WORDS, FORGELILAC_STATE_RIGHTS, FORGELILAC_NO_RIGHTS, FORGELILAC_RIGHT_PROPOSE,
        FORGELILAC_RIGHT_SIGN, FORGELILAC_RIGHT_DRIVE, FORGELILAC_RIGHT_READ, FORGELILAC_NO_RIGHT,
        FORGELILAC_EFFECT_WORDS, FORGELILAC_EFFECT_BEFORE, FORGELILAC_EFFECT_AFTER, FORGELILAC_EFFECT_LARGEST,
        FORGELILAC_EMPTY_COMMITTEE, FORGELILAC_PORT_WORDS, FORGELILAC_PORT(0), FORGELILAC_PORT(7),
        FORGELILAC_PORT_PLACE, FORGELILAC_PORT_BYTE, FORGELILAC_PORT_ENABLE, FORGELILAC_PORT_LINE,
        FORGELILAC_PORT_MODEM, FORGELILAC_PORT_SCRATCH, FORGELILAC_PORT_DIVISOR_LOW, FORGELILAC_PORT_DIVISOR_HIGH,
        FORGELILAC_OFFSETS, FORGELILAC_OFFSET_DATA, FORGELILAC_OFFSET_ENABLE, FORGELILAC_OFFSET_INTERRUPT,
        FORGELILAC_OFFSET_LINE, FORGELILAC_OFFSET_MODEM, FORGELILAC_OFFSET_STATUS, FORGELILAC_OFFSET_MODEM_STATUS,
        FORGELILAC_OFFSET_SCRATCH, FORGELILAC_OFFSET_RANGE,
    };
    return which < sizeof numbers / sizeof numbers[0] ? numbers[which] : UINT32_MAX;
}
