/* Times scrubs of an image: each argument is an image file. Prints the microseconds of one scrub, the best of some rounds.
   With libfec it first prints those of one row of 255 columns with 32 checks, as libfec decodes it, at 0, 8 and 16 errors. */

#define _POSIX_C_SOURCE 200809L

#include <stdio.h>
#include <string.h>
#include <time.h>

#include "almp.h"
#ifdef WITH_LIBFEC
#include <fec.h>
#endif

enum { ROUNDS = 7, TURNS = 40, ROWS = 2000 };

static double now(void) {
    struct timespec at;
    clock_gettime(CLOCK_MONOTONIC, &at);
    return at.tv_sec * 1e6 + at.tv_nsec / 1e3;
}

/* The best time of a scrub, in microseconds; below 0 where it is refused. */
static double scrub_time(const uint8_t *image, size_t size) {
    static uint8_t copy[ALMP_LARGEST_IMAGE];
    double best = 1e30;
    for (int round = 0; round < ROUNDS; round++) {
        double begun = now();
        for (int turn = 0; turn < TURNS; turn++) {
            memcpy(copy, image, size);
            if (ALMP_REFUSAL(almp_scrub(copy, size)) != 0) return -1;
        }
        double each = (now() - begun) / TURNS;
        if (each < best) best = each;
    }
    return best;
}

#ifdef WITH_LIBFEC
static double libfec_time(void *code, int errors) {
    double best = 1e30;
    for (int round = 0; round < ROUNDS; round++) {
        double begun = now();
        for (int turn = 0; turn < ROWS; turn++) {
            unsigned char row[255] = {0};
            for (int i = 0; i < errors; i++) row[(i * 31 + turn) % 255] = 1 + i;
            if (decode_rs_char(code, row, NULL, 0) != errors) return -1;
        }
        double each = (now() - begun) / ROWS;
        if (each < best) best = each;
    }
    return best;
}
#endif

int main(int count, char **arguments) {
#ifdef WITH_LIBFEC
    void *code = init_rs_char(8, 0x11D, 1, 1, 32, 0);
    for (int errors = 0; errors <= 16; errors += 8) printf("libfec %d %.2f\n", errors, libfec_time(code, errors));
    free_rs_char(code);
#endif
    for (int i = 1; i < count; i++) {
        static uint8_t image[ALMP_LARGEST_IMAGE];
        FILE *file = fopen(arguments[i], "rb");
        if (file == NULL) return 1;
        size_t size = fread(image, 1, sizeof image, file);
        fclose(file);
        printf("%s %.2f\n", arguments[i], scrub_time(image, size));
    }
    return 0;
}
