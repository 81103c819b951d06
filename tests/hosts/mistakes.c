/* Mistakes of a host, one at a time: MISTAKE says which. Number 0 is the same program without one. What the
 * compiler is to say of each stands in header.sh. */
#include <stddef.h>

#define FORGELILAC_ANSWERS
#include "forgelilac.h"

enum { CEILING = 64 };
static uint32_t state[FORGELILAC_STATE_WORDS], table[FORGELILAC_TABLE_WORDS(CEILING)];
#define WORDS(array) (array), sizeof(array) / sizeof(uint32_t)
#define ENGINE WORDS(state), WORDS(table)

uint32_t host(const uint32_t *proposal, uint32_t *sheet, uint32_t wanted);

/* Endorses a proposal, commits, and tells what it has come to. */
uint32_t host(const uint32_t *proposal, uint32_t *sheet, uint32_t wanted) {
    uint32_t body[FORGELILAC_BODY_WORDS], told = 0;
    forgelilac_begin_body(body, 0);
#if MISTAKE == 0
    struct forgelilac_answer answer;
    if (forgelilac_write_weight(sheet, wanted, 1) != 0) return 4;
    if (forgelilac_write_setting(sheet, FORGELILAC_MARGIN, 4) != 0) return 2;
    if (forgelilac_open(ENGINE, 0, sheet, FORGELILAC_SHEET_WORDS, FORGELILAC_NO_RIGHTS) != 0) return 1;
    if (forgelilac_propose(ENGINE, WORDS(body)) != 0) return 1;
    if (forgelilac_endorse(ENGINE, proposal, FORGELILAC_PROPOSAL_WORDS) != 0) return 1;
    answer = forgelilac_commit(ENGINE);
    told = answer.refusal == 0 ? answer.value : 0;
#elif MISTAKE == 1 /* a refusal that is not looked at: the signature leaves all the same */
    forgelilac_endorse(ENGINE, proposal, FORGELILAC_PROPOSAL_WORDS);
#elif MISTAKE == 2 /* and of a call with a value */
    forgelilac_commit(ENGINE);
#elif MISTAKE == 3 /* the value alone, 0 where it is refused */
    uint32_t blocks = forgelilac_commit(ENGINE);
    told = blocks;
#elif MISTAKE == 4 /* a share of nobody reads 0 */
    uint32_t share = forgelilac_share(ENGINE, 20, 1);
    told = share;
#elif MISTAKE == 5 /* never true: the number is in the high half */
    told = forgelilac_block(ENGINE, wanted) == FORGELILAC_NONE_THERE;
#elif MISTAKE == 6 /* of a loop to 16: the margin is written */
    forgelilac_write_setting(sheet, FORGELILAC_WEIGHT + 16, 4);
#elif MISTAKE == 7 /* bytes for words */
    told = forgelilac_propose(state, sizeof state, table, sizeof table / 4, WORDS(body));
#elif MISTAKE == 8 /* no pointer, and a length */
    told = forgelilac_propose(ENGINE, NULL, FORGELILAC_BODY_WORDS);
#elif MISTAKE == 9 /* words that were never written */
    uint32_t proposed[FORGELILAC_PROPOSAL_WORDS];
    told = forgelilac_endorse(ENGINE, WORDS(proposed));
#elif MISTAKE == 10 /* a longer length than there are words */
    uint32_t out[FORGELILAC_COMMITTEE_WORDS];
    told = forgelilac_committee(ENGINE, 1, out, FORGELILAC_COMMITTEE_WORDS + 1) + out[0];
#endif
    (void)proposal, (void)sheet, (void)wanted, (void)state, (void)table;
    return told;
}
