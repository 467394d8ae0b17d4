/* Reads a plan from standard input and prints its report by the C calls: the
 * pairs of each procedure and the verdict, in a buffer of just the entries that the
 * plan needs. With --tidy it prints the plan's tidy copy instead, with --straight its
 * straightened copy, with --space the sum of its threads' sizes, with --crossings how many
 * couples each two of its threads have and with --crossings FIRST SECOND the couples of two
 * of them, or the line of its refusal. With --time it prints how many microseconds of
 * processor time a verdict takes.
 *
 *   cc -std=c99 -I ../../include caller.c \
 *      -L ../../target/staticlib -llockplan -o caller
 *
 * For the stack that a call needs see docs/ANSWERS.md.
 */
#include <stdio.h>
#include <stdlib.h>
#include <string.h>
#include <time.h>

#include "lockplan.h"

/* One byte more than the longest plan: no more is needed to have it refused. */
static uint8_t text[32768 + 1];

/* Each buffer with some bytes behind it, which the calls keep. */
#define BEHIND 8
static uint8_t words[LOCKPLAN_WORD_BYTES + BEHIND];
static uint8_t copy[LOCKPLAN_COPY_BYTES + BEHIND];
static uint8_t longer[LOCKPLAN_COPY_BYTES + BEHIND];

static void print_refused(uint64_t answer)
{
    printf("(refused %u %llu)\n", lockplan_rule(answer),
           (unsigned long long)lockplan_line(answer));
}

static int refused(uint64_t answer)
{
    print_refused(answer);
    printf(")\n");
    return 0;
}

static void print_pair(struct lockplan_pair pair)
{
    unsigned lock;
    printf("(pair %u%s", pair.wanted, pair.by_hold ? "" : "s");
    for (lock = 0; lock < 32; lock++) {
        if (pair.held >> lock & 1)
            printf(" %u", lock);
        if (pair.shared >> lock & 1)
            printf(" %us", lock);
    }
    printf(")");
}

static void print_pairs(uint64_t count)
{
    uint64_t k;
    for (k = 0; k < count; k++) {
        print_pair(lockplan_pair_at(words, (size_t)k));
        printf("\n");
    }
}

static void print_verdict(uint64_t answer, const uint8_t *entries)
{
    uint64_t k;
    unsigned thread;
    if (lockplan_kind(answer) == LOCKPLAN_FREE) {
        printf("(free)\n");
        return;
    }
    printf("(deadlock\n(stuck");
    for (thread = 0; thread < 8; thread++)
        if (lockplan_stuck(answer) >> thread & 1)
            printf(" %u", thread);
    printf(")\n");
    for (k = 0; k < lockplan_count(answer); k++) {
        unsigned entry = lockplan_entry(entries, (size_t)k);
        printf("(step %u %u)\n", lockplan_thread(entry), lockplan_choice(entry));
    }
    printf(")\n");
}

static void print_couples(uint64_t first, uint64_t second, uint64_t count,
                          const uint8_t *couples)
{
    uint64_t k;
    printf("(cross %llu %llu %llu\n", (unsigned long long)first,
           (unsigned long long)second, (unsigned long long)count);
    for (k = 0; k < count; k++) {
        printf("(couple ");
        print_pair(lockplan_first(couples, (size_t)k));
        printf(" ");
        print_pair(lockplan_second(couples, (size_t)k));
        printf(")\n");
    }
    printf(")\n");
}

static int kept(const uint8_t *buffer, size_t from, size_t to)
{
    for (; from < to; from++)
        if (buffer[from] != 0xa5)
            return 0;
    return 1;
}

/* A call that writes a copy: lockplan_tidy or lockplan_straight. */
typedef uint64_t copy_call(const uint8_t *text, size_t text_len, uint8_t *out,
                           size_t out_len);

/* Whether a buffer that is too short is refused by rule 1, at no line, and kept. */
static int short_refused(copy_call *call, size_t length, size_t lent)
{
    uint64_t answer;
    memset(longer, 0xa5, sizeof longer);
    answer = call(text, length, longer, lent);
    return lockplan_kind(answer) == LOCKPLAN_REFUSED && lockplan_rule(answer) == 1
        && lockplan_line(answer) == 0 && kept(longer, 0, sizeof longer);
}

/* Whether a buffer of a byte more gives an answer and a copy again. */
static int same_copy(copy_call *call, size_t length, uint64_t answer)
{
    memset(longer, 0xa5, sizeof longer);
    return call(text, length, longer, LOCKPLAN_COPY_BYTES + 1) == answer
        && memcmp(longer, copy, sizeof copy) == 0;
}

/* Prints a copy, when buffers that are too short have been refused and a longer one has
 * given the same. */
static int print_copy(copy_call *call, size_t length)
{
    static const size_t few[] = {0, 1, 6, LOCKPLAN_COPY_BYTES / 2, LOCKPLAN_COPY_BYTES - 1};
    uint64_t answer;
    size_t k, written = 0;
    for (k = 0; k < sizeof few / sizeof few[0]; k++)
        if (!short_refused(call, length, few[k]))
            return 3;
    memset(copy, 0xa5, sizeof copy);
    answer = call(text, length, copy, LOCKPLAN_COPY_BYTES);
    if (lockplan_kind(answer) == LOCKPLAN_COPIED)
        written = (size_t)lockplan_count(answer);
    if (!kept(copy, written, sizeof copy) || !same_copy(call, length, answer))
        return 3;
    if (lockplan_kind(answer) == LOCKPLAN_REFUSED)
        print_refused(answer);
    else
        fwrite(copy, 1, written, stdout);
    return 0;
}

static int space(size_t length)
{
    uint64_t answer = lockplan_space(text, length);
    if (lockplan_kind(answer) == LOCKPLAN_REFUSED)
        print_refused(answer);
    else
        printf("(sum %llu)\n", (unsigned long long)lockplan_count(answer));
    return 0;
}

/* Prints how many couples each two threads have. Of a thread with itself rule 14 tells
 * that the plan keeps its own rules, and so it tells of one behind the last. */
static int crossings_table(size_t length)
{
    uint64_t answer = lockplan_crossings(text, length, 0, 0, words, 0);
    uint64_t first, second;
    if (lockplan_rule(answer) != 14) {
        print_refused(answer);
        return 0;
    }
    printf("(crossings\n");
    for (first = 0;; first++) {
        for (second = first + 1;; second++) {
            answer = lockplan_crossings(text, length, first, second, words, 0);
            if (lockplan_kind(answer) == LOCKPLAN_REFUSED)
                break;
            printf("(cross %llu %llu %llu)\n", (unsigned long long)first,
                   (unsigned long long)second, (unsigned long long)lockplan_count(answer));
        }
        if (second == first + 1)
            break;
    }
    printf(")\n");
    return 0;
}

/* Whether a call that is lent so many bytes gives an answer again, with the couples
 * that fit whole and nothing else written. */
static int same_crossings(size_t length, uint64_t first, uint64_t second, size_t lent,
                          uint64_t answer, const uint8_t *couples)
{
    size_t fit = lent / LOCKPLAN_COUPLE_BYTES;
    if (lockplan_kind(answer) == LOCKPLAN_REFUSED)
        fit = 0;
    else if (fit > lockplan_count(answer))
        fit = (size_t)lockplan_count(answer);
    memset(words, 0xa5, sizeof words);
    return lockplan_crossings(text, length, first, second, words, lent) == answer
        && memcmp(words, couples, fit * LOCKPLAN_COUPLE_BYTES) == 0
        && kept(words, fit * LOCKPLAN_COUPLE_BYTES, sizeof words);
}

/* Prints the couples of two threads, in a buffer of just the bytes that they need, when
 * buffers of less or little more than a couple have given the same. */
static int crossings(size_t length, uint64_t first, uint64_t second)
{
    static const size_t few[] = {0, 1, 8, 24, 40, 47, 48, 49, 72, 95, 96, 97};
    uint64_t answer = lockplan_crossings(text, length, first, second, words, 0), k;
    size_t lent = 0;
    uint8_t *couples;
    int right;
    if (lockplan_kind(answer) == LOCKPLAN_CROSSED)
        lent = LOCKPLAN_COUPLE_BYTES * (size_t)lockplan_count(answer);
    couples = malloc(lent + BEHIND);
    if (couples == NULL)
        return 2;
    memset(couples, 0xa5, lent + BEHIND);
    right = lockplan_crossings(text, length, first, second, couples, lent) == answer
        && kept(couples, lent, lent + BEHIND);
    for (k = 0; k < sizeof few / sizeof few[0]; k++)
        right = right && same_crossings(length, first, second, few[k], answer, couples);
    if (right && lockplan_kind(answer) == LOCKPLAN_REFUSED)
        print_refused(answer);
    else if (right)
        print_couples(first, second, lockplan_count(answer), couples);
    free(couples);
    return right ? 0 : 3;
}

/* Prints the verdict. It is lent the entries that the space call tells, or none
 * where that is refused: the verdict then is too. */
static int verdict(size_t length)
{
    uint64_t answer = lockplan_space(text, length);
    size_t lent = 0, filled = 0;
    uint8_t *entries;
    int right;
    if (lockplan_kind(answer) == LOCKPLAN_NEEDED)
        lent = 2 * (size_t)lockplan_count(answer);
    entries = malloc(lent + BEHIND);
    if (entries == NULL)
        return 2;
    memset(entries, 0xa5, lent + BEHIND);
    answer = lockplan_verdict(text, length, entries, lent);
    if (lockplan_kind(answer) == LOCKPLAN_DEADLOCK)
        filled = 2 * (size_t)lockplan_count(answer);
    right = filled <= lent && kept(entries, filled, lent + BEHIND);
    if (right && lockplan_kind(answer) == LOCKPLAN_REFUSED)
        print_refused(answer);
    else if (right)
        print_verdict(answer, entries);
    free(entries);
    return right ? 0 : 3;
}

/* The least time of a verdict in 50 batches of 100, with all the entries lent that a
 * plan can need. */
static int least_time(size_t length)
{
    static uint8_t entries[LOCKPLAN_ENTRY_BYTES];
    double least = -1;
    int batch, call;
    for (batch = 0; batch < 50; batch++) {
        clock_t begun = clock();
        double each;
        for (call = 0; call < 100; call++)
            lockplan_verdict(text, length, entries, sizeof entries);
        each = (double)(clock() - begun) * 1e6 / CLOCKS_PER_SEC / 100;
        if (least < 0 || each < least)
            least = each;
    }
    printf("%.1f\n", least);
    return 0;
}

/* Whether pair lists that are lent a word or a byte too few, or room for the pairs in one
 * word each, are refused by rule 1, at no line, and keep their buffers. */
static int short_lists_refused(size_t length)
{
    static const size_t few[] = {0, 8 * LOCKPLAN_PAIRS, LOCKPLAN_WORD_BYTES - 8,
                                 LOCKPLAN_WORD_BYTES - 1};
    size_t k;
    memset(words, 0xa5, sizeof words);
    for (k = 0; k < sizeof few / sizeof few[0]; k++) {
        uint64_t answer = lockplan_pairs(text, length, 0, words, few[k]);
        if (lockplan_kind(answer) != LOCKPLAN_REFUSED || lockplan_rule(answer) != 1
            || lockplan_line(answer) != 0)
            return 0;
    }
    return kept(words, 0, sizeof words);
}

static int report(size_t length)
{
    uint64_t answer, proc;
    int status;
    if (!short_lists_refused(length))
        return 3;
    printf("(report\n");
    for (proc = 0;; proc++) {
        memset(words, 0xa5, sizeof words);
        answer = lockplan_pairs(text, length, proc, words, LOCKPLAN_WORD_BYTES);
        if (lockplan_kind(answer) == LOCKPLAN_REFUSED) {
            if (!kept(words, 0, sizeof words))
                return 3;
            /* Rule 11: there is no such procedure, the one before was the last. */
            if (lockplan_rule(answer) == 11)
                break;
            return refused(answer);
        }
        if (!kept(words, LOCKPLAN_PAIR_BYTES * (size_t)lockplan_count(answer), sizeof words))
            return 3;
        printf("(proc %llu\n", (unsigned long long)proc);
        print_pairs(lockplan_count(answer));
        printf(")\n");
    }
    status = verdict(length);
    printf(")\n");
    return status;
}

/* The number of some digits; one that 64 bits do not hold is the greatest that they do. */
static uint64_t number(const char *digits)
{
    return strtoull(digits, NULL, 10);
}

static int answer(size_t length, int count, char **arguments)
{
    if (count > 1 && strcmp(arguments[1], "--tidy") == 0)
        return print_copy(lockplan_tidy, length);
    if (count > 1 && strcmp(arguments[1], "--straight") == 0)
        return print_copy(lockplan_straight, length);
    if (count > 1 && strcmp(arguments[1], "--space") == 0)
        return space(length);
    if (count > 1 && strcmp(arguments[1], "--crossings") == 0)
        return count > 3 ? crossings(length, number(arguments[2]), number(arguments[3]))
                         : crossings_table(length);
    if (count > 1 && strcmp(arguments[1], "--time") == 0)
        return least_time(length);
    return report(length);
}

int main(int count, char **arguments)
{
    size_t length = fread(text, 1, sizeof text, stdin);
    int status;

    if (ferror(stdin)) {
        perror("caller");
        return 2;
    }
    status = answer(length, count, arguments);
    if (fflush(stdout) != 0 || ferror(stdout)) {
        perror("caller");
        return 2;
    }
    return status;
}
