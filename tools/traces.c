/*
 * Makes the calls whose answer tells something secret, under one of several sets of secrets: the key,
 * the nonce, the message and the records of sales. Under valgrind's lackey every instruction and every
 * address that the program uses is written down, and two sets with the same answers must leave the same
 * trace. So nothing here, and nothing in calls.c, branches on the set or makes an address of it.
 *
 * usage: traces SET
 *
 * SET is a digit from 0 to 4: the secrets are all zero bits, all one bits, or mixed. In each a sale or a
 * parcel that is damaged is so at another place, and a parcel of another start. Prints a line for each
 * call and state, in whose order the traces follow each other: whether all answers were right, and both.
 */
#include <stdio.h>

#include "calls.h"

enum { MESSAGE = 300, STATES = 100 };

/* No message, and one with whole blocks and a leftover. */
static const struct plan plan = {LIST(0, MESSAGE), LIST(20), LIST(5)};
static uint64_t wrong[STATES];
static size_t state_count;

/* The trace of a state begins where this is called, and that of the last ends so. */
__attribute__((noinline)) void begin(void)
{
    __asm__ volatile("" ::: "memory");
}

static void attempt(const struct call *call)
{
    uint64_t expected = call->answer();

    wrong[state_count] |= call->make() ^ expected;
}

static void trace(const struct call *call, unsigned set)
{
    for (unsigned state = 0; state <= call->kind->starts; state++) {
        begin();
        each_traced(call, &plan, state, set, attempt);
        state_count++;
    }
}

static void say(const struct call *call, const uint64_t *wrong_answers)
{
    for (unsigned state = 0; state <= call->kind->starts; state++)
        printf("%s %s, %s\n", wrong_answers[state] ? "wrong" : "right", call->name,
               state < call->kind->starts ? call->kind->whole[state] : "damaged");
}

int main(int argc, char **argv)
{
    unsigned set;

    if (argc != 2)
        return 2;
    set = (unsigned)argv[1][0] - '0';
    fill(set, MESSAGE);
    for (size_t i = 0; i < call_count; i++)
        if (calls[i].traced)
            trace(&calls[i], set);
    begin();
    for (size_t i = 0, said = 0; i < call_count; i++)
        if (calls[i].traced) {
            say(&calls[i], wrong + said);
            said += calls[i].kind->starts + 1;
        }
    return 0;
}
