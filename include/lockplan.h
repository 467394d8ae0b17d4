/* Lock plans: the verdict, the space that it needs, the pair list, the tidy copy, the
 * straightened copy and the crossings of two threads, on the caller's own buffers.
 *
 * A call answers with one 64-bit number, kind + 256 * a + 65536 * b:
 *
 *   call       kind                    a            b
 *   verdict    0 LOCKPLAN_FREE         0            0
 *              1 LOCKPLAN_DEADLOCK     stuck set    number of schedule entries
 *              2 LOCKPLAN_REFUSED      rule         line (0 where none is named)
 *   space      0 LOCKPLAN_NEEDED       0            number of entries to lend
 *              2 LOCKPLAN_REFUSED      rule         line (0 where none is named)
 *   pairs      0 LOCKPLAN_LISTED       0            number of pairs
 *              2 LOCKPLAN_REFUSED      rule         line (0 where none is named)
 *   tidy       0 LOCKPLAN_COPIED       0            number of bytes written
 *              2 LOCKPLAN_REFUSED      rule         line (0 where none is named)
 *   straight   0 LOCKPLAN_COPIED       0            number of bytes written
 *              2 LOCKPLAN_REFUSED      rule         line (0 where none is named)
 *   crossings  0 LOCKPLAN_CROSSED      0            number of all couples
 *              2 LOCKPLAN_REFUSED      rule         line (0 where none is named)
 *
 * The stuck set has bit t for thread t. The tidy copy is the plan without what is
 * passed over: one form a line, each line ended, nothing else. The straightened copy is
 * the tidy copy of the plan in which every either is replaced by its two blocks, one
 * after the other, and every loop by its block: it is accepted, with the same pairs,
 * procedure by procedure, and the same free or deadlock; its schedule may be another. An
 * answer fills the buffer's start, each entry or word lowest byte first, and keeps the
 * rest; free and refused keep the whole buffer. Lengths are in bytes. No pointer is null,
 * also where its length is 0, and the two buffers do not overlap.
 *
 * How much to lend to the verdict: ask lockplan_space, which needs no buffer. It
 * answers with the sum of the sizes of the plan's threads, and a buffer of so many
 * whole entries, two bytes each, always suffices; one of fewer is refused with rule
 * 1, also where the answer would be free, but only if no rule of the plan is broken.
 * LOCKPLAN_ENTRIES suffice for every plan. lockplan_space refuses by the plan's
 * rules: a text that it refuses the verdict refuses alike, whatever is lent.
 *
 * A buffer of fewer words or bytes than the constants below is refused with rule 1
 * by the pair list and the two copies, before the plan is looked at.
 *
 * A critical pair is a record of three 64-bit words: the set of the locks held, the set
 * of the locks shared, the wanted lock times 2 plus 1 where it is wanted by hold. In a
 * set lock k is the bit 2 to the power k. A list is in the order of these words in turn,
 * and its number is one of pairs, not of words.
 *
 * The crossings of two threads, which are numbered from 0 in the order of their lines,
 * are the couples of a critical pair of the first and one of the second whose locks may
 * stand together, and each of which wants what may not stand beside what the other has:
 * none exactly where these two threads alone can never become stuck. No lock may be held
 * in one thread while another holds or shares it. The order is by the first pair, then
 * the second. The buffer may have any length, also 0: it takes the first couples that fit
 * whole, LOCKPLAN_COUPLE_BYTES each, and the count is of all. A thread that is not
 * there, or the same one twice, is refused with rule 14, line 0, but only if no rule of
 * the plan is broken.
 *
 * For the stack that a call needs see docs/ANSWERS.md.
 */
#ifndef LOCKPLAN_H
#define LOCKPLAN_H

#include <stddef.h>
#include <stdint.h>

#ifdef __cplusplus
extern "C" {
#endif

/* A number of 16-bit entries that suffices for the verdict on every plan. */
#define LOCKPLAN_ENTRIES 6144
/* No procedure of an accepted plan has more pairs. */
#define LOCKPLAN_PAIRS 511
/* Least number of 64-bit words in the buffer of a pair list: three for each pair, 1533. */
#define LOCKPLAN_WORDS (3 * LOCKPLAN_PAIRS)
/* The same in bytes: 12288 for the entries, 12264 for the words. */
#define LOCKPLAN_ENTRY_BYTES (2 * LOCKPLAN_ENTRIES)
#define LOCKPLAN_WORD_BYTES (8 * LOCKPLAN_WORDS)
/* Least number of bytes in the buffer of a tidy or a straightened copy. */
#define LOCKPLAN_COPY_BYTES 32768
/* The bytes that a pair takes, three words, and those of a couple of a crossing, six. */
#define LOCKPLAN_PAIR_BYTES 24
#define LOCKPLAN_COUPLE_BYTES 48

#define LOCKPLAN_FREE 0
#define LOCKPLAN_LISTED 0
#define LOCKPLAN_COPIED 0
#define LOCKPLAN_NEEDED 0
#define LOCKPLAN_CROSSED 0
#define LOCKPLAN_DEADLOCK 1
#define LOCKPLAN_REFUSED 2

uint64_t lockplan_verdict(const uint8_t *text, size_t text_len,
                          uint8_t *out, size_t out_len);

uint64_t lockplan_space(const uint8_t *text, size_t text_len);

uint64_t lockplan_pairs(const uint8_t *text, size_t text_len, uint64_t proc,
                        uint8_t *out, size_t out_len);

uint64_t lockplan_tidy(const uint8_t *text, size_t text_len,
                       uint8_t *out, size_t out_len);

uint64_t lockplan_straight(const uint8_t *text, size_t text_len,
                           uint8_t *out, size_t out_len);

uint64_t lockplan_crossings(const uint8_t *text, size_t text_len, uint64_t first,
                            uint64_t second, uint8_t *out, size_t out_len);

/* The parts of an answer. */

static inline unsigned lockplan_kind(uint64_t answer)
{
    return (unsigned)(answer & 255);
}

/* The a of an answer: the stuck set of a deadlock, the rule of a refusal. */
static inline unsigned lockplan_stuck(uint64_t answer)
{
    return (unsigned)(answer >> 8 & 255);
}

static inline unsigned lockplan_rule(uint64_t answer)
{
    return (unsigned)(answer >> 8 & 255);
}

/* The b of an answer: the number of entries, pairs, bytes or couples, the line of a
 * refusal. */
static inline uint64_t lockplan_count(uint64_t answer)
{
    return answer >> 16;
}

static inline uint64_t lockplan_line(uint64_t answer)
{
    return answer >> 16;
}

/* Entry k of a schedule: thread + 8 * choice. Choice 1 is one or entering, 2 is
 * two or leaving, 0 is every other step. */

static inline unsigned lockplan_entry(const uint8_t *out, size_t k)
{
    return out[2 * k] + 256u * out[2 * k + 1];
}

static inline unsigned lockplan_thread(unsigned entry)
{
    return entry % 8;
}

static inline unsigned lockplan_choice(unsigned entry)
{
    return entry / 8;
}

/* Word k of a buffer of words. */

static inline uint64_t lockplan_word(const uint8_t *out, size_t k)
{
    uint64_t word = 0;
    int byte;
    for (byte = 7; byte >= 0; byte--)
        word = word * 256 + out[8 * k + (size_t)byte];
    return word;
}

/* A critical pair. docs/WIRING.md has the bit of each lock. */

struct lockplan_pair {
    uint32_t held;    /* the locks held, as a set of bits */
    uint32_t shared;  /* the locks shared, as a set of bits */
    unsigned wanted;  /* the lock wanted */
    unsigned by_hold; /* 1 where it is wanted by hold, 0 by share */
};

/* Pair k of a pair list. */
static inline struct lockplan_pair lockplan_pair_at(const uint8_t *out, size_t k)
{
    struct lockplan_pair pair;
    uint64_t third = lockplan_word(out, 3 * k + 2);
    pair.held = (uint32_t)lockplan_word(out, 3 * k);
    pair.shared = (uint32_t)lockplan_word(out, 3 * k + 1);
    pair.wanted = (unsigned)(third / 2);
    pair.by_hold = (unsigned)(third % 2);
    return pair;
}

/* Couple k of a crossing: the pair of the first thread, and that of the second. */

static inline struct lockplan_pair lockplan_first(const uint8_t *out, size_t k)
{
    return lockplan_pair_at(out, 2 * k);
}

static inline struct lockplan_pair lockplan_second(const uint8_t *out, size_t k)
{
    return lockplan_pair_at(out, 2 * k + 1);
}

#ifdef __cplusplus
}
#endif

#endif
