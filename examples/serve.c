/* Loads examples/job.image, or the image named, and serves its clock and its devices until the machine stops. */
#include "plumbsorrel.h"
#include <stdio.h>
#include <stdlib.h>

#define STATE state, PLUMBSORREL_STATE
#define STORES common, PLUMBSORREL_COMMON, own, PLUMBSORREL_PRIVATE

static uint8_t image[65 * PLUMBSORREL_BLOCK + 1]; /* the longest image, and a byte that no image has */
static uint16_t code[PLUMBSORREL_MOST_CODE], common[PLUMBSORREL_COMMON], own[PLUMBSORREL_PRIVATE];
static uint16_t state[PLUMBSORREL_STATE], record[PLUMBSORREL_RECORD];

static uint64_t taken(const char *what, uint64_t answer) {
    if (plumbsorrel_refused(answer) == PLUMBSORREL_TAKEN) return answer;
    fprintf(stderr, "serve: %s is refused with %u\n", what, plumbsorrel_refused(answer));
    exit(EXIT_FAILURE);
}

int main(int words, char **word) {
    FILE *file = fopen(words > 1 ? word[1] : "examples/job.image", "rb");
    if (!file) return perror("serve: the image"), EXIT_FAILURE;
    size_t length = fread(image, 1, sizeof image, file);
    fclose(file);
    uint64_t ran, count = 0;
    size_t n = plumbsorrel_value(taken("load", plumbsorrel_load(image, length, code, PLUMBSORREL_MOST_CODE, STORES, STATE)));
    do {
        ran = taken("run", plumbsorrel_run(code, n, 1000, STORES, STATE));
        count += plumbsorrel_count(ran);
        if (plumbsorrel_end(ran) == PLUMBSORREL_STARTED) {
            unsigned device = plumbsorrel_device(ran);
            taken("record", plumbsorrel_record(device, STORES, STATE, record, PLUMBSORREL_RECORD));
            printf("second %u: device %u is given %u\n", state[PLUMBSORREL_AT_SECONDS], device, record[2]);
            taken("done", plumbsorrel_done(device, 0, 0, STORES, STATE));
        } else if (plumbsorrel_end(ran) != PLUMBSORREL_STOPPED) {
            taken("tick", plumbsorrel_tick(STATE));
        }
    } while (plumbsorrel_end(ran) != PLUMBSORREL_STOPPED);
    printf("stopped with %u at line %u", state[PLUMBSORREL_AT_STOP], state[PLUMBSORREL_AT_LINE]);
    printf(" after %lu instructions\n", (unsigned long)count);
    return state[PLUMBSORREL_AT_STOP] == 0 ? EXIT_SUCCESS : EXIT_FAILURE;
}
