/* First calls of the library on small stacks. The program `stack` of ../rust makes the
 * plans and finds the least stack of each call, this one makes the calls:
 *
 *   gcc -std=c99 -O2 -Wall -Wextra -Werror -Iinclude tests/c/stack.c \
 *       target/staticlib/liblockplan.a -o target/stack
 *   (cd tests/rust && cargo run --release --features library --bin stack -- \
 *       --program ../../target/stack)
 *   target/stack                         # what a first call of memset or memcpy needs
 *   target/stack --try SIZE CALL < PLAN  # whether a call on so many bytes returns
 *
 * Linked so, the loader binds memset and memcpy when the library first calls them, on the
 * stack of that call. With -Wl,-z,now or LD_BIND_NOW=1 it binds them at start, with
 * -static nothing is left to bind, and with -DAGAIN the call is not the first: that is
 * lockplan_space, on the stack of the process.
 *
 * CALL is verdict, tidy, straight, space, crossings, or the number of a procedure for its
 * pairs. The loader goes down to a multiple of 64 bytes, so each call is made four times,
 * on stacks that begin 0, 16, 32 and 48 bytes above one, each time in a process of its
 * own. Exit status: 0 all returned; 1 a stack was too small; 3 it could not be done.
 *
 * Nothing here may call memset or memcpy before the library does. gcc makes such calls of
 * loops over bytes: hence volatile.
 */
#define _GNU_SOURCE
#include <stdio.h>
#include <stdlib.h>
#include <string.h>
#include <sys/mman.h>
#include <sys/resource.h>
#include <sys/wait.h>
#include <unistd.h>

#include "lockplan.h"

#define PATTERN 0xa5
/* The inaccessible bytes below a stack: more than the largest frame of a call. */
#define GUARD ((size_t)1 << 20)

static uint8_t text[32768];
static uint8_t out[LOCKPLAN_COPY_BYTES];

typedef void function(void);

/* Called as the library calls them: to take their addresses would bind them at start. */
function first_memset, first_memcpy;
__asm__(".text\n"
        "first_memset: jmp memset@PLT\n"
        "first_memcpy: jmp memcpy@PLT");

/* Calls a function with six words on the stack that ends at `top`, a multiple of 16. */
static void call_on(volatile uint8_t *top, function *call, const uint64_t *words)
{
    register uint64_t first __asm__("rdi") = words[0];
    register uint64_t second __asm__("rsi") = words[1];
    register uint64_t third __asm__("rdx") = words[2];
    register uint64_t fourth __asm__("rcx") = words[3];
    register uint64_t fifth __asm__("r8") = words[4];
    register uint64_t sixth __asm__("r9") = words[5];
    register volatile uint8_t *stack __asm__("r13") = top;
    register function *callee __asm__("r14") = call;
    __asm__ volatile("mov %%rsp, %%r12\n\tmov %%r13, %%rsp\n\tcall *%%r14\n\tmov %%r12, %%rsp"
                     : "+r"(first), "+r"(second), "+r"(third), "+r"(fourth), "+r"(fifth),
                       "+r"(sixth)
                     : "r"(stack), "r"(callee)
                     : "rax", "r10", "r11", "r12", "cc", "memory", "xmm0", "xmm1", "xmm2",
                       "xmm3", "xmm4", "xmm5", "xmm6", "xmm7", "xmm8", "xmm9", "xmm10",
                       "xmm11", "xmm12", "xmm13", "xmm14", "xmm15");
}

static int is(const char *name, const char *other)
{
    return strcmp(name, other) == 0;
}

/* Makes a call on the stack that ends at `top`. */
static void make(volatile uint8_t *top, const char *name, size_t length)
{
    uint64_t at = (uintptr_t)text, to = (uintptr_t)out;
    uint64_t lent[6] = {at, length, to, sizeof out, 0, 0};
    uint64_t crossings[6] = {at, length, 0, 1, to, sizeof out};
    uint64_t pairs[6] = {at, length, strtoull(name, NULL, 10), to, sizeof out, 0};
    uint64_t copied[6] = {to, at, sizeof out, 0, 0, 0};
    if (is(name, "verdict"))
        call_on(top, (function *)lockplan_verdict, lent);
    else if (is(name, "tidy"))
        call_on(top, (function *)lockplan_tidy, lent);
    else if (is(name, "straight"))
        call_on(top, (function *)lockplan_straight, lent);
    else if (is(name, "space"))
        call_on(top, (function *)lockplan_space, lent);
    else if (is(name, "crossings"))
        call_on(top, (function *)lockplan_crossings, crossings);
    else if (is(name, "memset"))
        call_on(top, first_memset, copied);
    else if (is(name, "memcpy"))
        call_on(top, first_memcpy, copied);
    else
        call_on(top, (function *)lockplan_pairs, pairs);
}

/* The child's part: a call on so many bytes, the lowest of them so far above a page. */
static int try_at(size_t above, size_t size, const char *name, size_t length)
{
    volatile uint8_t *pages = mmap(NULL, GUARD + above + size, PROT_NONE,
                                   MAP_PRIVATE | MAP_ANONYMOUS, -1, 0);
    size_t k;
    if (pages == MAP_FAILED
        || mprotect((void *)(pages + GUARD), above + size, PROT_READ | PROT_WRITE) != 0)
        return 3;
    for (k = 0; k < above; k++)
        pages[GUARD + k] = PATTERN;
    make(pages + GUARD + above + size, name, length);
    for (k = 0; k < above; k++)
        if (pages[GUARD + k] != PATTERN)
            return 1;
    return 0;
}

static int try_on(size_t size, const char *name, size_t length)
{
    size_t above;
    int status;
    for (above = 0; above < 64; above += 16) {
        pid_t child = fork();
        if (child == 0)
            _exit(try_at(above, size, name, length));
        if (child < 0 || waitpid(child, &status, 0) != child)
            return 3;
        if (status != 0)
            return WIFEXITED(status) ? WEXITSTATUS(status) : 1;
    }
    return 0;
}

/* Prints the least stack on which a function of the C library returns. */
static int print_least(const char *name)
{
    size_t size = 16;
    int status;
    while ((status = try_on(size, name, 0)) == 1)
        size += 16;
    if (status == 0)
        printf("%s %zu\n", name, size);
    return status;
}

int main(int argc, char **argv)
{
    static const struct rlimit no_core;
    size_t length = 0;
    ssize_t some;
    int status;
    setrlimit(RLIMIT_CORE, &no_core);
    if (argc == 1) {
        status = print_least("memset");
        return status != 0 ? status : print_least("memcpy");
    }
    if (argc != 4 || !is(argv[1], "--try"))
        return 3;
    while ((some = read(0, text + length, sizeof text - length)) > 0)
        length += (size_t)some;
#ifdef AGAIN
    lockplan_space(text, length);
#endif
    return try_on(strtoull(argv[2], NULL, 10), argv[3], length);
}
