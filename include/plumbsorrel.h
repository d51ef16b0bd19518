/* The proved machine of Plumbsorrel: link libplumbsorrel.a. C99 and C++.
 *
 * Numbers and slices only: a slice is a pointer and a length, in that order. A length counts words of 16 bits, of an
 * image bytes. No pointer may be null, also where the length is 0, and what is written to may overlap nothing else.
 * The library keeps no pointer and no state of its own, allocates nothing and never blocks. Words are uint16_t in the
 * processor's byte order; an image is bytes and the same everywhere.
 *
 * Each function returns a number. Its low 8 bits are 0 where the offer is taken, else the number of the refusal.
 * A refusal changes no word of anything. Where several apply, the lowest is given.
 */
#ifndef PLUMBSORREL_H
#define PLUMBSORREL_H

#include <stddef.h>
#include <stdint.h>

#ifdef __cplusplus
extern "C" {
#endif

/* Sizes, in words, and of a block in bytes. */
enum {
    PLUMBSORREL_STATE = 822,
    PLUMBSORREL_COMMON = 2048,
    PLUMBSORREL_PRIVATE = 20480,
    PLUMBSORREL_MOST_CODE = 16256,
    PLUMBSORREL_RECORD = 4,
    PLUMBSORREL_BLOCK = 512
};

/* The version of the state's layout: raised with every change of its words (docs/ABI.md has what each added). */
enum { PLUMBSORREL_LAYOUT_VERSION = 2 };

/* Places in the state: the stop's number (10 while the machine goes on), its line, the clock's seconds, n. */
enum {
    PLUMBSORREL_AT_STOP = 813,
    PLUMBSORREL_AT_LINE = 814,
    PLUMBSORREL_AT_SECONDS = 815,
    PLUMBSORREL_AT_LENGTH = 818
};

/* The low 8 bits of an answer. */
enum plumbsorrel_refusal {
    PLUMBSORREL_TAKEN = 0,
    PLUMBSORREL_BAD_LENGTH = 1,   /* the image's length is 0 or not a multiple of 512 */
    PLUMBSORREL_BAD_BLOCK = 2,    /* a block's check or number is wrong: plumbsorrel_value says which block */
    PLUMBSORREL_BAD_HEADER = 3,   /* a header field out of range, or a nonzero word after it */
    PLUMBSORREL_BAD_COUNT = 4,    /* the number of blocks is not 1 plus n/254 rounded up */
    PLUMBSORREL_BAD_FILL = 5,     /* a nonzero word after the code */
    PLUMBSORREL_BAD_STORE = 6,    /* a lent store has the wrong length, or the code is not n words */
    PLUMBSORREL_UNSOUND = 7,      /* the state is not 822 words, no machine's, or not sound */
    PLUMBSORREL_HAS_STOPPED = 8,  /* the machine has stopped */
    PLUMBSORREL_BAD_DEVICE = 9,   /* status above 6, no such device, device not busy */
    PLUMBSORREL_TOO_SHORT = 10    /* what is to be written to is too short */
};

/* How a step or a run ended. */
enum plumbsorrel_end {
    PLUMBSORREL_ONWARD = 0,       /* the budget is used up */
    PLUMBSORREL_IDLE = 1,         /* nobody is ready: the clock, the bell or a device wakes the next */
    PLUMBSORREL_STARTED = 2,      /* a device has started: plumbsorrel_device says which */
    PLUMBSORREL_STOPPED = 3       /* the machine has stopped: see the state at AT_STOP and AT_LINE */
};

/* The answer's refusal, 0 where it was taken. */
static inline unsigned plumbsorrel_refused(uint64_t answer) { return (unsigned)(answer & 255); }

/* Of load: n, the words of code. Of write: the image's bytes. Of a refusal with 2: the block. */
static inline uint64_t plumbsorrel_value(uint64_t answer) { return answer >> 8; }

/* Of a taken step or run: how it ended, the device that has started (else 0), the instructions that ran. */
static inline unsigned plumbsorrel_end(uint64_t answer) { return (unsigned)(answer >> 8 & 255); }
static inline unsigned plumbsorrel_device(uint64_t answer) { return (unsigned)(answer >> 16 & 255); }
static inline uint32_t plumbsorrel_count(uint64_t answer) { return (uint32_t)(answer >> 32); }

/* Loads an image: writes its code to the first n words of `code`, clears both stores and writes a fresh machine to
 * `state`, whatever stood there. Refuses with 1 to 5 (the image), 6 (a store's length), 10 (fewer than n words for
 * the code, or fewer than 822 for the state). Leaves the code buffer past n and the state past 822 as they were. */
uint64_t plumbsorrel_load(const uint8_t *image, size_t image_length, uint16_t *code, size_t code_length,
                          uint16_t *common, size_t common_length, uint16_t *private_store, size_t private_length,
                          uint16_t *state, size_t state_length);

/* Runs one instruction; an idle machine runs none and is left as it was. The code has exactly n words.
 * Refuses with 6, 7, 8. */
uint64_t plumbsorrel_step(const uint16_t *code, size_t code_length, uint16_t *common, size_t common_length,
                          uint16_t *private_store, size_t private_length, uint16_t *state, size_t state_length);

/* Runs until `budget` instructions are done, the machine idles, a device starts or the machine stops: the same as
 * that many steps. Refuses with 6, 7, 8. */
uint64_t plumbsorrel_run(const uint16_t *code, size_t code_length, uint32_t budget, uint16_t *common,
                         size_t common_length, uint16_t *private_store, size_t private_length, uint16_t *state,
                         size_t state_length);

/* A thousandth of a second has passed. Refuses with 7, 8. */
uint64_t plumbsorrel_tick(uint16_t *state, size_t state_length);

/* The terminal's bell has rung: all who wait for it wake. Refuses with 7, 8. */
uint64_t plumbsorrel_bell(uint16_t *state, size_t state_length);

/* A busy device has done its operation, with a status from 0 to 6. Writes the status into the device's record, and
 * `arg` too where the operation is 0 (input) and the status 0; wakes the process that waits. Refuses with 6 to 9. */
uint64_t plumbsorrel_done(uint16_t device, uint16_t status, uint16_t arg, uint16_t *common, size_t common_length,
                          uint16_t *private_store, size_t private_length, uint16_t *state, size_t state_length);

/* Writes the image of a header and its code to the first bytes of `out`, and leaves the bytes behind it. `length` is
 * n. Refuses with 3 (the header), 6 (the code is not n words), 10 (`out` is shorter than the image). */
uint64_t plumbsorrel_write(uint16_t edition, uint16_t length, uint16_t devices, uint16_t variables,
                           const uint16_t *code, size_t code_length, uint8_t *out, size_t out_length);

/* 1 where the words are a sound state, else 0. Refuses nothing and changes nothing. */
uint64_t plumbsorrel_is_sound(const uint16_t *state, size_t state_length);

/* Copies the record of a busy device (operation, status, arg, unit) to the first four words of `record`, and changes
 * nothing else; also on a stopped machine. Refuses with 6, 7, 9 (no such device, or not busy), 10 (fewer than four
 * words of room). */
uint64_t plumbsorrel_record(uint16_t device, const uint16_t *common, size_t common_length,
                            const uint16_t *private_store, size_t private_length, const uint16_t *state,
                            size_t state_length, uint16_t *record, size_t record_length);

#ifdef __cplusplus
}
#endif

#endif
