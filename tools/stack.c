/*
 * The deepest stack of each call: runs it on a painted stack of its own and looks how far the paint is
 * gone. A call of nothing gives what the way there takes. The figures must be within those that
 * calmbaize.h states.
 *
 * usage: stack NAME...
 *
 * The names are those of the calls that calmbaize.h declares, and each must be among those tried.
 */
#define _XOPEN_SOURCE 700
#include <stdio.h>
#include <string.h>
#include <ucontext.h>

#include "calls.h"

enum { STACK = 1 << 17, PAINT = 0xa5 };

/* There are no to three blocks beside those that are taken four in a turn. */
static const struct plan plan = {
    LIST(0, 1, 127, 128, 129, 389, 768, 4096, CALMBAIZE_MESSAGE_BYTES_MAX),
    LIST(0, 1365, 2730, 4095),
    LIST(2, 3, 65, CALMBAIZE_STORE_BYTES_MAX / CELL),
};
static int checks, passed;
static unsigned long cases, unexpected;
static ucontext_t here, there;
static uint64_t stack[STACK / sizeof(uint64_t)], paint;
static size_t deepest;
static const struct call *made;
static uint64_t answer;

static void run(void)
{
    if (made != NULL)
        answer = made->make();
}

/* Paints anew what the call used. */
static size_t depth(const struct call *call)
{
    size_t untouched = 0;

    made = call;
    getcontext(&there);
    there.uc_stack.ss_sp = stack;
    there.uc_stack.ss_size = sizeof stack;
    there.uc_link = &here;
    makecontext(&there, run, 0);
    swapcontext(&here, &there);
    while (untouched < COUNT(stack) && stack[untouched] == paint)
        untouched++;
    memset(stack + untouched, PAINT, sizeof stack - untouched * sizeof *stack);
    return sizeof stack - untouched * sizeof *stack;
}

static void attempt(const struct call *call)
{
    uint64_t expected = call->answer();
    size_t found = depth(call);

    deepest = found > deepest ? found : deepest;
    cases++;
    unexpected += answer != expected;
}

/* How many of the settings 0 to 99 a call that seals accepts: all of them must be among those tried. */
static size_t accepted_settings(void)
{
    const struct call *seal = find("seal"), *seal_run = find("seal_run");
    size_t settings = 0;

    usual();
    for (now.mode = 0; now.mode < 100; now.mode++)
        for (now.rounds = 0; now.rounds < 100; now.rounds++)
            settings += seal->make() == TAG || seal_run->make() == TAG;
    return settings;
}

static void check(int truth)
{
    checks++;
    passed += truth;
}

static void check_call(const struct call *call, size_t floor)
{
    deepest = floor;
    each_case(call, &plan, attempt);
    printf("  %s: %zu bytes, stated %zu%s\n", call->name, deepest - floor, call->stack,
           deepest - floor <= call->stack ? "" : ": too deep");
    check(deepest - floor <= call->stack);
}

/* Every setting that is accepted is tried, and no call answers otherwise than it should. */
static void check_answers(void)
{
    size_t settings = accepted_settings(), tried = COUNT(modes) * COUNT(round_counts);
    int right = settings == tried && unexpected == 0;

    if (!right)
        printf("  answers: %zu settings tried of %zu accepted, %lu of %lu answers not as they should be\n",
               tried, settings, unexpected, cases);
    check(right);
}

int main(int argc, char **argv)
{
    memset(stack, PAINT, sizeof stack);
    paint = stack[0];
    fill(2, sizeof secrets.message);
    for (size_t i = 0, floor = depth(NULL); i < call_count; i++)
        check_call(&calls[i], floor);
    check_answers();
    for (int i = 1; i < argc; i++)
        if (find(argv[i]) == NULL) {
            printf("  not tried: %s\n", argv[i]);
            check(0);
        }
    printf("%d passed, %d failed\n", passed, checks - passed);
    return passed < checks;
}
