/*
 * Makes every call with what is secret marked undefined: the key, the nonce, the message, the parcel
 * and its tag, what lent words hold, the start of a walk or jump; in the store the record of a sale of
 * either kind, its sealed bytes and its tag, and not indices, kinds and nonces. Under valgrind's memcheck
 * every branch and every address that depends on one of them is an error.
 *
 * usage: secrets [VERDICT]
 *
 * VERDICT is how many branches on whether the tag differs are allowed in an open call, 0 if it is
 * not given. Comparing the tag itself may never branch, and takes more than one branch if it does.
 *
 * Where the answer tells which sale does not open, or under which start a parcel does, one branch is
 * allowed for each that the call tries. That these are on nothing but this, the check of the traces shows.
 */
#include <stdio.h>
#include <stdlib.h>

#include <valgrind/memcheck.h>

#include "calls.h"

/* There are one, two and three blocks beside those that are taken four in a turn. */
static const struct plan plan = {
    LIST(0, 1, 13, 127, 128, 129, 300, 389, 640, 901, 1024, 4096),
    LIST(0, 700),
    LIST(2, 6),
};
static unsigned long passed, failed;

static void hide(void *bytes, size_t len)
{
    VALGRIND_MAKE_MEM_UNDEFINED(bytes, len);
}

static void define(void *bytes, size_t len)
{
    VALGRIND_MAKE_MEM_DEFINED(bytes, len);
}

static void say(const char *name, uint64_t answer, unsigned errors)
{
    printf("  failed: %s: answer %#llx, %u uses of a secret: mode %zu, %zu rounds, header %zu, message %zu,"
           " %zu steps, jump %d %d %d, sale %zu of %zu, %s start, %#x into byte %zu\n",
           name, (unsigned long long)answer, errors, now.mode, now.rounds, now.header_len,
           now.message_len, now.steps_len, now.alpha, now.beta, now.gamma, now.sale, now.sales,
           now.old ? "old" : "new", now.changed, now.place);
}

static void attempt(const struct call *call)
{
    unsigned allowed = call->told == NULL ? 0 : call->told(), before, errors;
    uint64_t expected = call->answer(), answer;

    each_secret(hide);
    before = VALGRIND_COUNT_ERRORS;
    answer = call->make();
    errors = VALGRIND_COUNT_ERRORS - before;
    define(&answer, sizeof answer);
    each_secret(define);
    define(store, sizeof store);
    define(output, sizeof output);
    if (answer == expected && errors <= allowed) {
        passed++;
    } else {
        failed++;
        say(call->name, answer, errors);
    }
}

int main(int argc, char **argv)
{
    verdict = argc > 1 ? (unsigned)atoi(argv[1]) : 0;
    if (!RUNNING_ON_VALGRIND) {
        puts("secrets: run this under valgrind");
        return 2;
    }
    fill(2, sizeof secrets.message);
    for (size_t i = 0; i < call_count; i++)
        each_case(&calls[i], &plan, attempt);
    printf("%lu passed, %lu failed\n", passed, failed);
    return failed > 0;
}
