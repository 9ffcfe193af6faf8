/* Lays down 96 records, adds up their prices through a window, corrects a price, and shows what refusals look like. */
#include <inttypes.h>
#include <stdio.h>

#include "card.h"

enum {
    RECORDS = 96,
    RECORDS_IN_PAGE = CARD_PAGE / 128,
    PRICE_AT = 8,
    PRICE = 4,
    PAGES = 8,
    TABLE_PAGE = 3,
    COLUMN = RECORDS * PRICE,
};

/* The pages in which the three pages of records stand. */
static const uint32_t frames[] = {5, 2, 7};

static uint8_t bytes[PAGES * CARD_PAGE];
static uint8_t board[PAGES];

static void put_word(uint8_t *at, uint32_t word) {
    at[0] = (uint8_t)(word >> 24);
    at[1] = (uint8_t)(word >> 16);
    at[2] = (uint8_t)(word >> 8);
    at[3] = (uint8_t)word;
}

static uint32_t word_of(const uint8_t *at) {
    return (uint32_t)at[0] << 24 | (uint32_t)at[1] << 16 | (uint32_t)at[2] << 8 | at[3];
}

static void lay_down(void) {
    for (uint32_t page = 0; page < 3; page++) {
        put_word(bytes + TABLE_PAGE * CARD_PAGE + 4 * page, 0x80000000u | frames[page]);
    }
    for (uint32_t i = 0; i < RECORDS; i++) {
        uint32_t frame = frames[i / RECORDS_IN_PAGE];
        put_word(bytes + frame * CARD_PAGE + i % RECORDS_IN_PAGE * 128 + PRICE_AT, 199 + 50 * i);
    }
}

static void show(const char *what, struct card_answer answer) {
    printf("%s: reason %" PRIu64 " number %" PRIu64 ", cause %" PRIu64 " depth %" PRIu64 " place %" PRIu64 ", done %" PRIu64 "\n", what,
           answer.refusal.reason, answer.refusal.number, answer.fault.cause, answer.fault.depth, answer.fault.place, answer.done);
}

static void add_up(struct card_setup setup) {
    uint8_t column[COLUMN];
    struct card_answer answer = card_read(setup, bytes, sizeof bytes, board, sizeof board, 0, column, sizeof column);
    if (answer.done != sizeof column) {
        show("not read", answer);
        return;
    }
    uint64_t total = 0;
    for (size_t i = 0; i < RECORDS; i++) {
        total += word_of(column + i * PRICE);
    }
    printf("total: %" PRIu64 " cents, lookups %" PRIu64 ", fills %" PRIu64 ", line reads %" PRIu64 ", hits %" PRIu64 "\n", total,
           answer.window.lookups, answer.window.fills, answer.cache.reads, answer.cache.hits);
}

int main(void) {
    struct card_setup setup = {CARD_STRIDE, CARD_PLAIN, CARD_NO_CACHE, {COLUMN, TABLE_PAGE, PRICE, 128, PRICE_AT}};
    lay_down();
    show("check", card_check(setup, bytes, sizeof bytes, board, sizeof board));
    add_up(setup);

    uint8_t price[PRICE];
    put_word(price, 1999);
    show("correct", card_write(setup, bytes, sizeof bytes, board, sizeof board, 40 * PRICE, price, sizeof price));
    add_up(setup);
    setup.cache = CARD_CACHE_OVER;
    add_up(setup);
    setup.cache = CARD_NO_CACHE;

    uint8_t two[2 * CARD_LINE];
    show("past the end", card_read(setup, bytes, sizeof bytes, board, sizeof board, COLUMN - CARD_LINE, two, sizeof two));
    show("nothing asked", card_read(setup, bytes, sizeof bytes, board, sizeof board, 0, NULL, 0));
    put_word(bytes + TABLE_PAGE * CARD_PAGE + 8, 0x80000000u | frames[0]);
    show("one frame twice", card_check(setup, bytes, sizeof bytes, board, sizeof board));
    return 0;
}
