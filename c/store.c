/*
 * The sale store: cells of 64 bytes in one lent buffer. Cell 0 holds the heads of two chains, and every
 * other cell is in one of them. Every call but format walks both before it does anything else.
 */
#include "internal.h"

#include <string.h>

/* 1 for the version that looks at every store by marks, which the benchmarks compare too. */
#ifndef MARKS_ALONE
#define MARKS_ALONE 0
#endif

enum { CELL = 64, MIN_STORE = 128, MAX_STORE = 65536, MAX_CELLS = MAX_STORE / CELL };

/* Where the parts of a cell begin. Cell 0's first sale stands where the others have their next index. */
enum { NEXT = 0, FIRST_FREE = 2, KIND = 2, NUMBERS = 3, TAIL = 11, SEALED = 19 };
enum { FREE = 0, UNPRICED = 1, PRICED = 2 };
enum chain { FREE_CELLS, SALES };

/* Where the parts of a record begin. An unpriced sale has a clock in the place of price and day. */
enum { AMOUNT = 0, COLUMN = 4, MEANS = 6, PRICE = 7, DAY = 11, RECORD = 13 };
enum { COIN = 1, ROUNDS = 6 };

/* Numbers stand low byte first. */

static inline uint32_t get16(const uint8_t *p)
{
    return p[0] | (uint32_t)p[1] << 8;
}

static inline uint32_t get32(const uint8_t *p)
{
    return get16(p) | get16(p + 2) << 16;
}

static inline void put16(uint8_t *p, uint32_t x)
{
    p[0] = (uint8_t)x;
    p[1] = (uint8_t)(x >> 8);
}

static inline void put32(uint8_t *p, uint32_t x)
{
    put16(p, x);
    put16(p + 2, x >> 16);
}

/* The store's form. */

static int allowed_length(size_t len)
{
    return len >= MIN_STORE && len <= MAX_STORE && len % CELL == 0;
}

/* Whether a kind fits its chain. Compilers make one comparison of the sales' two. */
static inline int fits(uint8_t kind, enum chain chain)
{
    return chain == SALES ? kind == UNPRICED || kind == PRICED : kind == FREE;
}

/* Whether the rest of a chain, from an index on, has exactly so many cells, whose kinds all fit. */
static int is_rest(const uint8_t *store, size_t cells, size_t index, enum chain chain, size_t left)
{
    while (index != 0) {
        if (index >= cells || left == 0)
            return 0;
        if (!fits(store[CELL * index + KIND], chain))
            return 0;
        left--;
        index = get16(store + CELL * index + NEXT);
    }
    return left == 0;
}

/*
 * Whether the store is formed, seen without marks: a chain that ends has no cell twice, no kind fits
 * both chains, so that they have no cell in common, and as many cells as there are are all of them. The
 * chains are walked side by side, since a step in one need not wait for the other's. With the free
 * cell's kind tested first, gcc makes a quicker loop.
 */
static int is_sound(const uint8_t *store, size_t cells)
{
    size_t sale = get16(store + NEXT);
    size_t other = get16(store + FIRST_FREE);
    size_t left = cells - 1;

    while (sale != 0 && other != 0) {
        if (sale >= cells || other >= cells || left < 2)
            return 0;
        if (!fits(store[CELL * other + KIND], FREE_CELLS) ||
            !fits(store[CELL * sale + KIND], SALES))
            return 0;
        left -= 2;
        sale = get16(store + CELL * sale + NEXT);
        other = get16(store + CELL * other + NEXT);
    }
    if (sale != 0)
        return is_rest(store, cells, sale, SALES, left);
    return is_rest(store, cells, other, FREE_CELLS, left);
}

/*
 * Marks the cells of the chain from an index of cell 0 on, counts them down, and keeps the smallest
 * whose kind does not fit. Refuses with the cell that held an index past the last cell or of a marked
 * cell.
 */
static uint64_t follow(const uint8_t *store, size_t cells, size_t index, enum chain chain,
                       uint64_t marks[MAX_CELLS / 64], size_t *left, size_t *misfit)
{
    size_t holder = 0;

    while (index != 0) {
        uint64_t mark = (uint64_t)1 << index % 64;
        if (index >= cells || (marks[index / 64] & mark) != 0)
            return refuse(19, holder);
        marks[index / 64] |= mark;
        *left -= 1;
        if (!fits(store[CELL * index + KIND], chain) && index < *misfit)
            *misfit = index;
        holder = index;
        index = get16(store + CELL * index + NEXT);
    }
    return 0;
}

/* The first cell that is not marked, where it is below the limit, else the limit. */
static size_t first_missing(const uint64_t marks[MAX_CELLS / 64], size_t limit)
{
    size_t cell = 0;

    while (cell < limit && marks[cell / 64] == UINT64_MAX)
        cell += 64;
    while (cell < limit && (marks[cell / 64] >> cell % 64 & 1) != 0)
        cell++;
    return cell < limit ? cell : limit;
}

/*
 * The refusal of the store's first fault by marks, or 0. Kinds count only where both walks end. Cell 0
 * is marked from the beginning, since it is in no chain and never missing.
 */
static uint64_t first_fault(const uint8_t *store, size_t cells)
{
    uint64_t marks[MAX_CELLS / 64];
    size_t left = cells - 1, misfit = cells;
    uint64_t fault;

    memset(marks, 0, (cells + 63) / 64 * sizeof *marks);
    marks[0] = 1;
    fault = follow(store, cells, get16(store + NEXT), SALES, marks, &left, &misfit);
    if (fault == 0)
        fault = follow(store, cells, get16(store + FIRST_FREE), FREE_CELLS, marks, &left, &misfit);
    if (fault != 0)
        return fault;
    if (left != 0)
        misfit = first_missing(marks, misfit);
    return misfit < cells ? refuse(20, misfit) : 0;
}

/* The refusal of the store's form, or 0. */
static uint64_t check_form(const uint8_t *store, size_t len)
{
    if (!allowed_length(len))
        return refuse(18, 0);
    if (!MARKS_ALONE && is_sound(store, len / CELL))
        return 0;
    return first_fault(store, len / CELL);
}

/* The cell of the first sale in the chain with these numbers, or 0; before is the cell before it. */
static uint32_t find(const uint8_t *store, uint32_t machine, uint32_t sale, uint32_t *before)
{
    uint8_t numbers[TAIL - NUMBERS];
    uint32_t index = get16(store + NEXT);

    put32(numbers, machine);
    put32(numbers + 4, sale);
    *before = 0;
    while (index != 0 && memcmp(store + CELL * index + NUMBERS, numbers, sizeof numbers) != 0) {
        *before = index;
        index = get16(store + CELL * index + NEXT);
    }
    return index;
}

/* Sealed sales. */

static void seal_sale(const uint8_t *key, uint8_t *cell, const uint8_t record[RECORD])
{
    baseline_seal(MRO, ROUNDS, key, KEY, cell + NUMBERS, NONCE, NULL, 0, record, RECORD,
                  cell + SEALED, RECORD + TAG);
}

/* Whether the sale opens. */
static int open_sale(const uint8_t *key, const uint8_t *cell, uint8_t record[RECORD])
{
    return baseline_open(MRO, ROUNDS, key, KEY, cell + NUMBERS, NONCE, NULL, 0, cell + SEALED,
                         RECORD + TAG, record, RECORD) == RECORD;
}

/* The amount where the means is coin, else 0; no branch tells which. */
static uint64_t coin_amount(const uint8_t record[RECORD])
{
    uint64_t differs = record[MEANS] ^ COIN;
    uint64_t coin = -((differs - 1) >> 63);

    return get32(record + AMOUNT) & coin;
}

/* The calls. */

uint64_t baseline_store_format(uint8_t *store, size_t store_len)
{
    if (!allowed_length(store_len))
        return refuse(18, 0);

    memset(store, 0, store_len);
    put16(store + FIRST_FREE, 1);
    for (uint32_t i = 1; i + 1 < store_len / CELL; i++)
        put16(store + CELL * i + NEXT, i + 1);
    return 0;
}

uint64_t baseline_store_take(const uint8_t *key, size_t key_len, uint8_t *store, size_t store_len,
                             uint32_t machine, uint32_t sale, const uint8_t nonce_tail[8],
                             uint32_t amount, uint16_t column, uint8_t means, uint32_t price,
                             uint16_t day)
{
    uint8_t record[RECORD], *cell;
    uint32_t index, before;
    uint64_t fault;

    if (key_len != KEY)
        return refuse(3, 0);
    fault = check_form(store, store_len);
    if (fault != 0)
        return fault;
    if (find(store, machine, sale, &before) != 0)
        return refuse(16, 0);
    index = get16(store + FIRST_FREE);
    if (index == 0)
        return refuse(15, 0);

    cell = store + CELL * index;
    put16(store + FIRST_FREE, get16(cell + NEXT));
    put16(cell + NEXT, get16(store + NEXT));
    put16(store + NEXT, index);
    cell[KIND] = PRICED;
    put32(cell + NUMBERS, machine);
    put32(cell + NUMBERS + 4, sale);
    memcpy(cell + TAIL, nonce_tail, SEALED - TAIL);
    put32(record + AMOUNT, amount);
    put16(record + COLUMN, column);
    record[MEANS] = means;
    put32(record + PRICE, price);
    put16(record + DAY, day);
    seal_sale(key, cell, record);
    return index;
}

/* A sale that is named and opens: its cell, the cell before it in the chain, and its record. */
struct named {
    uint32_t index, before;
    uint8_t record[RECORD];
};

/* The refusal, or 0. */
static uint64_t open_named(const uint8_t *key, size_t key_len, const uint8_t *store,
                           size_t store_len, uint32_t machine, uint32_t sale, struct named *named)
{
    uint64_t fault;

    if (key_len != KEY)
        return refuse(3, 0);
    fault = check_form(store, store_len);
    if (fault != 0)
        return fault;
    named->index = find(store, machine, sale, &named->before);
    if (named->index == 0)
        return refuse(16, 0);
    if (!open_sale(key, store + CELL * named->index, named->record))
        return refuse(9, named->index);
    return 0;
}

uint64_t baseline_store_cancel(const uint8_t *key, size_t key_len, uint8_t *store,
                               size_t store_len, uint32_t machine, uint32_t sale)
{
    struct named named;
    uint64_t fault = open_named(key, key_len, store, store_len, machine, sale, &named);
    uint8_t *cell;

    if (fault != 0)
        return fault;

    cell = store + CELL * named.index;
    put16(store + CELL * named.before + NEXT, get16(cell + NEXT));
    memset(cell, 0, CELL);
    put16(cell + NEXT, get16(store + FIRST_FREE));
    put16(store + FIRST_FREE, named.index);
    return get32(named.record + AMOUNT);
}

uint64_t baseline_store_look_up(const uint8_t *key, size_t key_len, const uint8_t *store,
                                size_t store_len, uint32_t machine, uint32_t sale,
                                uint32_t *amount, uint32_t *price)
{
    struct named named;
    uint64_t fault = open_named(key, key_len, store, store_len, machine, sale, &named);
    uint8_t kind;

    if (fault != 0)
        return fault;

    kind = store[CELL * named.index + KIND];
    *amount = get32(named.record + AMOUNT);
    if (kind == PRICED)
        *price = get32(named.record + PRICE);
    return kind;
}

uint64_t baseline_store_total(const uint8_t *key, size_t key_len, const uint8_t *store,
                              size_t store_len, uint64_t *total)
{
    uint8_t record[RECORD];
    uint64_t fault, sum = 0;
    uint32_t index;

    if (key_len != KEY)
        return refuse(3, 0);
    fault = check_form(store, store_len);
    if (fault != 0)
        return fault;
    for (index = get16(store + NEXT); index != 0; index = get16(store + CELL * index + NEXT)) {
        if (!open_sale(key, store + CELL * index, record))
            return refuse(9, index);
        sum += coin_amount(record);
    }

    *total = sum;
    return 0;
}

uint64_t baseline_store_read(const uint8_t *store, size_t store_len, uint32_t machine,
                             uint32_t sale)
{
    uint32_t index, before;
    uint64_t fault;

    fault = check_form(store, store_len);
    if (fault != 0)
        return fault;
    index = find(store, machine, sale, &before);
    if (index == 0)
        return refuse(16, 0);

    return CELL * index + NUMBERS;
}
