/* The calls of the library libcard_c.a. docs/linking.md says what each answers, and what of it is proved.
 *
 * Every call builds its stack anew over the caller's bytes and keeps nothing: it writes the registers, arms them, opens a window, does its
 * work and closes. So there is nothing to make, to free or to hand back, and any numbers may stand in a setup: a setup that chooses
 * nothing is refused with a number.
 *
 * What the caller keeps, since no call can test it:
 * - a pointer and the length after it name so many bytes, which may be read, and of bytes, board and buffer also written, until the
 *   call returns. With the length 0 the pointer may be null. A length is at most PTRDIFF_MAX.
 * - bytes, board, and buffer or content do not overlap, and nothing else reads or writes them meanwhile, in another thread or a signal
 *   handler. Two calls may run at once if they have nothing in common.
 * The calls do not allocate, do not lock and do not call back. */
#ifndef TINGERBIL_CARD_H
#define TINGERBIL_CARD_H

#include <stddef.h>
#include <stdint.h>

#ifdef __cplusplus
extern "C" {
#endif

enum {
    CARD_LINE = 128,
    CARD_PAGE = 4096,
};

/* setup.mapping */
enum {
    CARD_DIRECT = 1,    /* image size, table page */
    CARD_COLOUR = 2,    /* image size, table page, way size, colour size, colour offset */
    CARD_STRIDE = 3,    /* image size, table page, object size, stride, object offset */
    CARD_TRANSPOSE = 4, /* image size, table page, element size, row size, row count */
};

/* setup.format */
enum {
    CARD_PLAIN = 1,   /* 128 bytes for each line */
    CARD_CHECKED = 2, /* 129 bytes for each line: its 128 cells and their exclusive or */
};

/* setup.cache */
enum {
    CARD_NO_CACHE = 0,
    CARD_CACHE_UNDER = 1, /* under the window */
    CARD_CACHE_OVER = 2,  /* over the window */
};

struct card_setup {
    uint64_t mapping;
    uint64_t format;
    uint64_t cache;
    uint64_t registers[5]; /* by their numbers; 0 where the mapping has none */
};

/* Why no window was opened. The reasons 11 to 15 and 21 to 25 are those of docs/mappings.md and docs/windows.md. */
enum {
    CARD_OPENED = 0,
    CARD_NO_REGISTER = 11,
    CARD_TOO_WIDE = 12,
    CARD_BAD_IMAGE = 13,
    CARD_BAD_CONDITION = 14,
    CARD_TOO_FAR = 15,
    CARD_SHORT_BOARD = 21,
    CARD_TABLE_OUTSIDE = 22,
    CARD_FRAME_OUTSIDE = 23,
    CARD_FRAME_IN_TABLE = 24,
    CARD_FRAME_TAKEN = 25,
    CARD_UNKNOWN_MAPPING = 31,
    CARD_UNKNOWN_FORMAT = 32,
    CARD_UNKNOWN_CACHE = 33,
};

struct card_refusal {
    uint64_t reason;
    uint64_t number; /* the register for 11 and 12, the entry of the page table for 21 to 25 */
};

/* The causes of docs/memory.md. */
enum {
    CARD_DONE = 0,
    CARD_BAD_RUN = 1,
    CARD_PAST_END = 2,
    CARD_BLANK = 3,
    CARD_NO_PAGE = 4,
    CARD_PAGE_OUT = 5,
    CARD_FAILED_CHECK = 6,
};

struct card_fault {
    uint64_t cause;
    uint64_t depth;
    uint64_t place;
};

struct card_window_report {
    uint64_t lookups;
    uint64_t fills;
};

struct card_cache_report {
    uint64_t reads;
    uint64_t hits;
    uint64_t prefetches;
    uint64_t share; /* hits of a thousand reads */
};

struct card_answer {
    struct card_refusal refusal;
    struct card_fault fault; /* of the run that was refused */
    uint64_t done;           /* how many bytes were read or written before it, or all */
    struct card_window_report window;
    struct card_cache_report cache;
};

/* Opens a window and closes it. The board needs a byte for each whole page of the memory that the bytes hold. */
struct card_answer card_check(struct card_setup setup, uint8_t *bytes, size_t bytes_length, uint8_t *board, size_t board_length);

/* Reads the window from the address on, line by line, up to the first run that is refused. */
struct card_answer card_read(struct card_setup setup, uint8_t *bytes, size_t bytes_length, uint8_t *board, size_t board_length,
                             uint64_t address, uint8_t *buffer, size_t buffer_length);

/* Writes the content into the window from the address on, the same way. */
struct card_answer card_write(struct card_setup setup, uint8_t *bytes, size_t bytes_length, uint8_t *board, size_t board_length,
                              uint64_t address, const uint8_t *content, size_t content_length);

#ifdef __cplusplus
}
#endif

#endif
