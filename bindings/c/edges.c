/* What a caller may pass that is no use: null pointers with the length 0, numbers that choose nothing, lengths that do not fit. */
#include <inttypes.h>
#include <stdio.h>
#include <string.h>

#include "card.h"

static uint8_t bytes[2 * CARD_PAGE + 1];
static uint8_t board[2];
static int failed;

static void due(const char *what, struct card_answer answer, uint64_t reason, uint64_t number, uint64_t cause, uint64_t place,
                uint64_t done) {
    if (answer.refusal.reason == reason && answer.refusal.number == number && answer.fault.cause == cause && answer.fault.place == place &&
        answer.done == done) {
        return;
    }
    printf("%s: reason %" PRIu64 " number %" PRIu64 ", cause %" PRIu64 " place %" PRIu64 ", done %" PRIu64 "\n", what,
           answer.refusal.reason, answer.refusal.number, answer.fault.cause, answer.fault.place, answer.done);
    failed = 1;
}

/* One line of the image, by the table in page 1, which names page 0. */
static struct card_setup direct(void) {
    struct card_setup setup = {CARD_DIRECT, CARD_PLAIN, CARD_NO_CACHE, {CARD_LINE, 1, 0, 0, 0}};
    return setup;
}

static struct card_answer check(struct card_setup setup) {
    return card_check(setup, bytes, sizeof bytes, board, sizeof board);
}

int main(void) {
    struct card_setup none, any, setup = direct();
    uint8_t line[CARD_LINE];
    memset(&none, 0, sizeof none);
    memset(&any, 0xFF, sizeof any);
    bytes[CARD_PAGE] = 0x80;

    due("nothing set", card_check(none, NULL, 0, NULL, 0), CARD_UNKNOWN_MAPPING, 0, 0, 0, 0);
    due("any numbers", card_check(any, NULL, 0, NULL, 0), CARD_UNKNOWN_MAPPING, 0, 0, 0, 0);
    setup.format = 0;
    due("no format", check(setup), CARD_UNKNOWN_FORMAT, 0, 0, 0, 0);
    setup = direct();
    setup.cache = 3;
    due("no place for a cache", check(setup), CARD_UNKNOWN_CACHE, 0, 0, 0, 0);
    setup = direct();
    setup.registers[4] = 1;
    due("a register that is not there", check(setup), CARD_NO_REGISTER, 4, 0, 0, 0);
    setup = direct();
    setup.registers[1] = UINT64_MAX;
    due("a value too wide", check(setup), CARD_TOO_WIDE, 1, 0, 0, 0);
    setup = direct();
    setup.registers[0] = 0;
    due("no image", check(setup), CARD_BAD_IMAGE, 0, 0, 0, 0);

    for (setup = direct(); setup.cache <= CARD_CACHE_OVER; setup.cache++) {
        due("no bytes", card_check(setup, NULL, 0, NULL, 0), CARD_TABLE_OUTSIDE, 0, 0, 0, 0);
        due("no board", card_check(setup, bytes, sizeof bytes, NULL, 0), CARD_SHORT_BOARD, 0, 0, 0, 0);
        due("opened", check(setup), CARD_OPENED, 0, 0, 0, 0);
        due("no buffer", card_read(setup, bytes, sizeof bytes, board, 2, 5, NULL, 0), CARD_OPENED, 0, CARD_BAD_RUN, 5, 0);
        due("no content", card_write(setup, bytes, sizeof bytes, board, 2, 5, NULL, 0), CARD_OPENED, 0, CARD_BAD_RUN, 5, 0);
        due("far past the end", card_read(setup, bytes, sizeof bytes, board, 2, UINT64_MAX, line, 2), CARD_OPENED, 0, CARD_PAST_END,
            UINT64_MAX, 0);
        due("half past the end", card_read(setup, bytes, sizeof bytes, board, 2, 64, line, 128), CARD_OPENED, 0, CARD_PAST_END, 128, 64);
        due("a whole line", card_write(setup, bytes, sizeof bytes, board, 2, 0, line, 128), CARD_OPENED, 0, 0, 0, 128);
    }

    printf("edges: %s\n", failed ? "failed" : "ok");
    return failed;
}
