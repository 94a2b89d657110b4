/* Calls every function of the library once on an image: tells the verdict and what a run will need, and tries what is
   promised of the images that are written.

   Build and run in the repository's root:
       (cd crates/bukzarn && rt lib)
       gcc -std=c99 -Wall -Wextra -pedantic -O2 -Iinclude -o target/functions_c \
           examples/c/functions.c crates/bukzarn/out/libbukzarn.a
       target/functions_c examples/limits.img

   Exit status: 0, or 1 if a function refused or a promise was not kept, 2 if the image cannot be read. */
#include <inttypes.h>
#include <stdio.h>
#include <string.h>

#include "bukzarn.h"

enum { BUDGET = 100000, FRAMES = 3, ALL_DOMAINS = 0xFFFF, SEED = 155840010, DEPTH = 5 };

/* An image, with room for one byte more than it may have. */
struct image {
    uint8_t bytes[BUKZARN_IMAGE_LIMIT + 1];
    size_t length;
};

static struct image given, fixed, again, stripped, load;
static uint8_t report[BUKZARN_REPORT_LENGTH];
static uint8_t other_report[BUKZARN_REPORT_LENGTH];
static uint8_t reports[FRAMES * BUKZARN_REPORT_LENGTH];
static uint8_t work[BUKZARN_WORK_LENGTH];

static const char *const needs[] = {"steps",       "bindings", "other-bindings", "pieces", "other-pieces", "cells",
                                    "other-cells", "labels",   "advice",         "frames", "log"};

/* Was the answer that of an image that was written? Then its length is kept. */
static int written(struct image *image, uint64_t answer)
{
    image->length = bukzarn_image_bytes(answer);
    if (image->length == 0)
        fprintf(stderr, "refused %d %zu\n", (int)bukzarn_refusal_number(answer), bukzarn_place(answer));
    return image->length != 0;
}

static int same(const struct image *one, const struct image *other)
{
    return one->length == other->length && memcmp(one->bytes, other->bytes, one->length) == 0;
}

/* Without a log, so that only prints end with outcome 9. */
static size_t run(const struct image *image, uint8_t *left)
{
    uint8_t none = 0;
    return bukzarn_report_bytes(bukzarn_run(image->bytes, image->length, &none, 0, BUDGET, &none, 0, left,
                                            BUKZARN_REPORT_LENGTH, work, sizeof work));
}

/* Does the image leave this report, so many bytes, for each of some frames without bytes that are run in one call? */
static int runs_together(const struct image *image, const uint8_t *left, size_t length)
{
    uint8_t none = 0;
    uint64_t answers[FRAMES];
    bukzarn_run_frames(image->bytes, image->length, &none, 0, BUDGET, &none, 0, reports, sizeof reports, answers, FRAMES,
                       work, sizeof work);
    for (size_t i = 0; i < FRAMES; i++)
        if (bukzarn_report_bytes(answers[i]) != length
            || memcmp(reports + i * BUKZARN_REPORT_LENGTH, left, length) != 0)
            return 0;
    return 1;
}

static int accepted(const struct image *image)
{
    return bukzarn_validate(image->bytes, image->length, sizeof work, sizeof report) == BUKZARN_ACCEPTED;
}

/* As the program `need` prints it. */
static void print_needs(const struct image *image)
{
    uint32_t numbers[BUKZARN_NEEDS];
    uint64_t answer = bukzarn_need(image->bytes, image->length, numbers, BUKZARN_NEEDS);
    if (bukzarn_refusal_number(answer) != BUKZARN_ACCEPTED)
        printf("refused %d %zu\n", (int)bukzarn_refusal_number(answer), bukzarn_place(answer));
    else
        for (int i = 0; i < BUKZARN_NEEDS; i++)
            printf("%s %" PRIu32 "\n", needs[i], numbers[i]);
}

/* The domains of an image, as a mask: they are its first records. */
static uint16_t domains(const struct image *image)
{
    unsigned mask = 0;
    for (size_t at = 0; bukzarn_word(image->bytes + at + 2) == 1; at += bukzarn_word(image->bytes + at))
        mask = mask << 1 | 1u;
    return (uint16_t)(mask & ALL_DOMAINS);
}

static int promises_kept(void)
{
    size_t length = run(&given, report);
    return same(&again, &fixed) && same(&stripped, &fixed) && accepted(&fixed) && accepted(&load)
           && run(&fixed, other_report) == length && memcmp(report, other_report, length) == 0
           && runs_together(&given, report, length);
}

int main(int argc, char **argv)
{
    FILE *file = argc == 2 ? fopen(argv[1], "rb") : NULL;
    if (file == NULL) {
        fprintf(stderr, "usage: functions_c IMAGE\n");
        return 2;
    }
    given.length = fread(given.bytes, 1, sizeof given.bytes, file);
    if (ferror(file) || fclose(file) != 0)
        return 2;
    print_needs(&given);
    int done = written(&fixed, bukzarn_fixed(given.bytes, given.length, fixed.bytes, sizeof fixed.bytes))
               && written(&again, bukzarn_fixed(fixed.bytes, fixed.length, again.bytes, sizeof again.bytes))
               && written(&stripped, bukzarn_strip(given.bytes, given.length, domains(&given), stripped.bytes,
                                                   sizeof stripped.bytes))
               && written(&load, bukzarn_load(SEED, DEPTH, load.bytes, sizeof load.bytes));
    return done && promises_kept() ? 0 : 1;
}
