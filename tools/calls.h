/*
 * A sound call of every entry point of calmbaize.h under any settings, and what it must answer: what
 * the checks of the machine code make. A new call has its place in calls.c alone.
 */
#ifndef CALLS_H
#define CALLS_H

#include "calmbaize.h"

#define COUNT(list) (sizeof(list) / sizeof(list)[0])

/* What seal and open accept. */
static const uint32_t modes[] = {1, 2};
static const uint32_t round_counts[] = {4, 6, 8, 12};

enum { TAG = CALMBAIZE_TAG_BYTES, BLOCK = CALMBAIZE_BLOCK_BYTES, CELL = CALMBAIZE_CELL_BYTES };
/* The one machine, and for how many sales there are records; a sale has the record at its remainder. */
enum { MACHINE = 7, RECORDS = 8 };
/* Where a cell has its kind, and behind it the part that calmbaize_store_read() finds. */
enum { KIND_AT = 2, PART_AT = 3 };
/* What is in a total, an amount and a price before a call. */
#define NO_TOTAL UINT64_MAX
#define NO_CENTS UINT32_MAX

/* What is secret. Each buffer has room for one more than is allowed. */
extern struct secrets {
    uint8_t key[CALMBAIZE_KEY_BYTES + 1], nonce[CALMBAIZE_NONCE_BYTES + 1], start[BLOCK + 1];
    /* Of a sale without a price, price and day have the bytes of the clock. */
    struct record {
        uint32_t amount;
        uint16_t column;
        uint8_t means;
        uint32_t price;
        uint16_t day;
    } records[RECORDS];
    uint8_t message[CALMBAIZE_MESSAGE_BYTES_MAX + 1], parcel[CALMBAIZE_SEALED_BYTES_MAX + 1];
    uint64_t words[CALMBAIZE_RUN_WORDS_MAX + 1];
} secrets;

/* What is not, and what is secret in part: the store. */
extern uint8_t header[CALMBAIZE_HEADER_BYTES_MAX + 1], steps[CALMBAIZE_STEPS_MAX + 1];
extern uint8_t tail[CALMBAIZE_NONCE_TAIL_BYTES + 1], output[CALMBAIZE_SEALED_BYTES_MAX + 1];
extern uint8_t store[CALMBAIZE_STORE_BYTES_MAX + CELL];

/* The arguments of the call that is made next, and what else decides its answer. */
extern struct arguments {
    size_t mode, rounds, key_len, nonce_len, header_len, message_len, parcel_len, output_len;
    size_t words_len, start_len, first_step, steps_len, store_len, sale;
    int32_t alpha, beta, gamma;
    /* How many sales are in the store, numbered as their cells; or what it holds is no store. */
    size_t sales;
    int blank;
    /* The number with which the store is refused for its last cell, whose index or kind is wrong, or 0. */
    uint32_t broken;
    /* What store_total leaves: what the coins come to, or where it is refused what was there. */
    uint64_t total;
    /* What store_look_up leaves: the sale's, or where it is refused or there is no price what was there. */
    uint32_t amount, price;
    /* The parcel, or the sale named, is so long; is of the old start; has these bits changed there. */
    size_t sealed_len, place;
    unsigned old;
    uint8_t changed;
} now;

/* Sets `now` to sound arguments of every call: no header, no message, no step, one sale. */
void usual(void);

/* Fills the secrets with all zero bits, all one bits, or mixed ones, with no branch on the set. */
void fill(unsigned set, size_t message_len);

/* The lengths that are tried, and the stores' numbers of cells. */
struct list {
    const size_t *of;
    size_t count;
};
struct plan {
    struct list messages, headers, cells;
};

#define LIST(...) {(const size_t[]){__VA_ARGS__}, COUNT(((const size_t[]){__VA_ARGS__}))}

/* What a call takes: gives visit() each setting that the plan has of it. */
struct kind {
    void (*settings)(const struct plan *plan, void (*visit)(void));
    /* Makes what is sealed, for the setting; then one state of it, of that start and damaged or not. */
    void (*seal)(void);
    void (*choose)(void);
    /* The states in which it is whole; in one more it is damaged. */
    const char *const *whole;
    unsigned starts;
};

struct call {
    const char *name;
    /* The bound on its stack that calmbaize.h states. */
    size_t stack;
    const struct kind *kind;
    /* Makes the call, and says what it must answer. */
    uint64_t (*make)(void), (*answer)(void);
    /* How many branches on secrets there may be, which the answer tells. Where null, none. */
    unsigned (*told)(void);
    /* Where the answer tells something secret, the traces show that the branches are on nothing else. */
    int traced;
};

extern const struct call calls[];
extern const size_t call_count;

/* How many branches are allowed on whether the tag differs, in a call that opens and tells only that. */
extern unsigned verdict;

/* The call of that name, or null. */
const struct call *find(const char *name);

/* Has attempt() make the call in every state of every setting of the plan. */
void each_case(const struct call *call, const struct plan *plan, void (*attempt)(const struct call *));

/*
 * Has attempt() make it in one state: whole under the start of that number, or damaged where there is
 * no such start; then by the set at another place, and of either start.
 */
void each_traced(const struct call *call, const struct plan *plan, unsigned state, unsigned set,
                 void (*attempt)(const struct call *));

/* Gives mark() each part that is secret in the call made next. */
void each_secret(void (*mark)(void *, size_t));

#endif
