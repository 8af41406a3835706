/*
 * A program over what make install put there: makes every call, and holds the parcels that are sealed,
 * opened and converted, and a sale of each kind that is read, looked up and cancelled, to the bytes of
 * their format.
 */
#include <stdio.h>
#include <string.h>

#include "calls.h"

#if CALMBAIZE_FORMAT != 2
#error "the parcels and the sales below are of format 2: put those of the new format in their place"
#endif

enum { MESSAGE = 4, PARCEL = MESSAGE + CALMBAIZE_TAG_BYTES };

/* In this format and in format 1: under OPP, and under MRO. */
static const uint8_t parcels[][2][PARCEL] = {
    {{0x73, 0x2d, 0x27, 0x43, 0xb9, 0x33, 0xf5, 0x67, 0x4b, 0x17, 0xbc, 0x54,
      0xca, 0x7e, 0xb4, 0xce, 0x1f, 0x5c, 0x8d, 0x77, 0x64, 0xb8, 0xdb, 0x84,
      0x32, 0x23, 0xf6, 0x2b, 0x88, 0xb1, 0x3d, 0xbe, 0xe1, 0x4b, 0xc2, 0x2b},
     {0x47, 0x1b, 0xed, 0x8f, 0xc9, 0xaf, 0x96, 0x6c, 0xfb, 0x14, 0xb3, 0xaa,
      0xf0, 0x10, 0x5e, 0xf4, 0xdc, 0x49, 0x09, 0xfc, 0xb1, 0x94, 0x65, 0x7c,
      0x96, 0xef, 0xb7, 0x06, 0x59, 0xe0, 0xef, 0xc7, 0x38, 0xec, 0xb9, 0x25}},
    {{0xbc, 0x65, 0xe2, 0xd4, 0x72, 0xae, 0xc0, 0x71, 0x4c, 0x3b, 0xfb, 0xc3,
      0x25, 0xe9, 0xd4, 0x9f, 0x89, 0xd2, 0x63, 0x67, 0x61, 0x78, 0x57, 0x0a,
      0xe6, 0xa8, 0x14, 0xb7, 0xd0, 0x03, 0xf9, 0x40, 0xf8, 0xdf, 0xf3, 0xd2},
     {0x1c, 0xc0, 0xd5, 0x4a, 0x06, 0x4b, 0xc8, 0xcb, 0xd4, 0x84, 0xb4, 0xfc,
      0xa8, 0x87, 0x2e, 0xbc, 0x35, 0x84, 0x34, 0x3b, 0x36, 0x4d, 0xc5, 0x82,
      0x23, 0x84, 0x63, 0x3d, 0x62, 0xdf, 0x96, 0x26, 0xae, 0x79, 0x29, 0xfa}},
};

/* Nonce, sealed record and tag of the sales below. Versions before 0.8.0 stored the first so. */
static const uint8_t sale_parts[][CALMBAIZE_SALE_BYTES] = {
    {0x07, 0x00, 0x00, 0x00, 0x01, 0x00, 0x00, 0x00, 0x00, 0x01, 0x02, 0x03, 0x04,
     0x05, 0x06, 0x07, 0x2c, 0xf5, 0xa4, 0xc2, 0x55, 0xad, 0xab, 0x80, 0x73, 0x9b,
     0x7d, 0x50, 0xb1, 0x91, 0x2f, 0x10, 0xb5, 0xf8, 0xcd, 0xfe, 0x95, 0x25, 0xcc,
     0x5d, 0x10, 0x1a, 0x1a, 0x22, 0xea, 0xa1, 0x46, 0xca, 0x03, 0xa8, 0xc8, 0x31,
     0x9a, 0x24, 0x9f, 0x24, 0xd7, 0x4d, 0x6b, 0xa9, 0x2b},
    {0x07, 0x00, 0x00, 0x00, 0x02, 0x00, 0x00, 0x00, 0x00, 0x01, 0x02, 0x03, 0x04,
     0x05, 0x06, 0x07, 0xbe, 0x8a, 0x3a, 0x17, 0xc5, 0x2d, 0x4c, 0xa8, 0xfd, 0x29,
     0xc2, 0x70, 0xe6, 0x38, 0x38, 0xb1, 0x7c, 0x0c, 0x43, 0x29, 0x21, 0xbf, 0xbe,
     0xf7, 0x0f, 0x88, 0x2e, 0x6a, 0x16, 0xa1, 0xa3, 0xbf, 0x96, 0x56, 0x34, 0xbc,
     0x1f, 0x38, 0x8b, 0xed, 0x90, 0x61, 0x69, 0x03, 0xc3},
};

/* The key, the nonces and the tail have the bytes 0, 1, 2 and so on. */
static void count_up(uint8_t *bytes, size_t len)
{
    for (size_t i = 0; i < len; i++)
        bytes[i] = (uint8_t)i;
}

static int answers(const char *call)
{
    return find(call)->make() == find(call)->answer();
}

/* What the call makes of the message, or of its parcel in either format, is what is stated. */
static int writes_as_stated(const struct call *call)
{
    const int mro = now.mode == CALMBAIZE_MODE_MRO;

    for (now.old = 0; now.old < call->kind->starts; now.old++) {
        memcpy(secrets.parcel, parcels[now.old][mro], PARCEL);
        memset(output, 0, PARCEL);
        if (!answers(call->name))
            return 0;
        if (call->answer() == MESSAGE && memcmp(output, secrets.message, MESSAGE) != 0)
            return 0;
        if (call->answer() == PARCEL && memcmp(output, parcels[0][mro], PARCEL) != 0)
            return 0;
    }
    return 1;
}

/* By every call that takes a message or a parcel. */
static int parcels_as_stated(void)
{
    const struct kind *message = find("seal")->kind, *parcel = find("open")->kind;
    int hold = 1;

    usual();
    memcpy(header, "post", now.header_len = 4);
    memcpy(secrets.message, "sale", now.message_len = MESSAGE);
    now.parcel_len = PARCEL;
    now.rounds = 6;
    for (now.mode = CALMBAIZE_MODE_OPP; now.mode <= CALMBAIZE_MODE_MRO; now.mode++)
        for (size_t i = 0; i < call_count; i++)
            if (calls[i].kind == message || calls[i].kind == parcel)
                hold = hold && writes_as_stated(&calls[i]);
    return hold;
}

/* Its part is as stated, and its kind is this. */
static int stored(size_t sale, uint32_t kind)
{
    const uint8_t *cell = store + CELL * sale;

    return cell[KIND_AT] == kind &&
           memcmp(cell + PART_AT, sale_parts[sale - 1], CALMBAIZE_SALE_BYTES) == 0;
}

/* It is taken, of the new kind. Where price and day have a clock's bytes, nothing else is new. */
static int taken(size_t sale)
{
    now.sale = sale;
    return answers("store_take") && stored(sale, CALMBAIZE_KIND_PRICED);
}

/* The store of an older version in which the first sale was taken. */
static void put_older_sale(void)
{
    store[0] = 1;
    store[2] = 2;
    memset(store + CELL, 0, KIND_AT);
    store[CELL + KIND_AT] = CALMBAIZE_KIND_UNPRICED;
    memcpy(store + CELL + PART_AT, sale_parts[0], sizeof sale_parts[0]);
}

/* It is found and looked up, with this price. */
static int told(size_t sale, uint32_t price)
{
    now.sale = sale;
    now.amount = secrets.records[sale].amount;
    now.price = price;
    return answers("store_read") && answers("store_look_up");
}

/* The kind is not sealed: where it is changed, a clock is told as a price, and the total is as it was. */
static int clock_told_as_price(size_t sale)
{
    uint8_t *kind = store + CELL * sale + KIND_AT;
    int hold;

    *kind = CALMBAIZE_KIND_PRICED;
    now.price = secrets.records[sale].price;
    hold = find("store_look_up")->make() == CALMBAIZE_KIND_PRICED && answers("store_total");
    *kind = CALMBAIZE_KIND_UNPRICED;
    return hold;
}

/* It is cancelled, and the coins of the others come to this. */
static int cancelled(size_t sale, uint64_t total)
{
    now.sale = sale;
    now.total = total;
    return answers("store_cancel") && answers("store_total");
}

/* Two sales in coins from column 3, under one key. In the first, price and day have the clock's bytes, 0 to 5. */
static int stored_as_stated(void)
{
    struct record *first = &secrets.records[1], *second = &secrets.records[2];
    int hold;

    usual();
    now.store_len = 3 * CELL;
    *first = (struct record){
        .amount = 150, .column = 3, .means = CALMBAIZE_MEANS_COIN, .price = 0x03020100, .day = 0x0504};
    *second = (struct record){
        .amount = 200, .column = 3, .means = CALMBAIZE_MEANS_COIN, .price = 198, .day = 20045};
    hold = answers("store_format") && taken(1) && answers("store_format");
    put_older_sale();
    now.sales = 1;
    hold = hold && taken(2) && stored(1, CALMBAIZE_KIND_UNPRICED);
    now.sales = 2;
    now.total = first->amount + second->amount;
    hold = hold && answers("store_total") && told(1, NO_CENTS) && clock_told_as_price(1);
    return hold && told(2, second->price) && cancelled(1, second->amount) && cancelled(2, 0);
}

static unsigned long unexpected;

static void attempt(const struct call *call)
{
    uint64_t expected = call->answer();

    unexpected += call->make() != expected;
}

int main(void)
{
    const struct plan plan = {LIST(0, 300), LIST(20), LIST(4)};
    int parcels_hold, store_holds;

    count_up(secrets.key, sizeof secrets.key);
    count_up(secrets.nonce, sizeof secrets.nonce);
    count_up(tail, sizeof tail);
    parcels_hold = parcels_as_stated();
    store_holds = stored_as_stated();
    for (size_t i = 0; i < call_count; i++)
        each_case(&calls[i], &plan, attempt);
    if (!parcels_hold)
        printf("  the parcels are not those of format %d, or of the format before\n", CALMBAIZE_FORMAT);
    if (!store_holds)
        printf("  the stored sales are not those of format %d\n", CALMBAIZE_FORMAT);
    if (unexpected > 0)
        printf("  %lu answers not as they should be\n", unexpected);
    return !(parcels_hold && store_holds && unexpected == 0);
}
