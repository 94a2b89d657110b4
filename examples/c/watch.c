/* Runs an image from a file as document 01's bench sheet says (frame bytes 0 to 255, budget 100,000, log 16,384 bytes)
   and prints its listing: the log, the outcome with the steps, the result, the cells; or `refused N PLACE`.

   Build and run in the repository's root:
       (cd crates/bukzarn && rt lib)
       gcc -std=c99 -Wall -Wextra -pedantic -O2 -Iinclude -o target/watch_c \
           examples/c/watch.c crates/bukzarn/out/libbukzarn.a
       target/watch_c crates/watch/data/p2.img */
#include <inttypes.h>
#include <stdio.h>

#include "bukzarn.h"

#define BUDGET 100000u

/* One byte more than an image may have, so that a longer file is seen to be too long. */
static uint8_t image[BUKZARN_IMAGE_LIMIT + 1];
static uint8_t frame[256];
static uint8_t log_bytes[16384];
static uint8_t report[BUKZARN_REPORT_LENGTH];
static uint8_t work[BUKZARN_WORK_LENGTH];

static const char *const outcomes[] = {
    "done",   "spent",  "aborted", "frames",         "bindings",    "cells",       "labels",
    "advice", "pieces", "log",     "other-bindings", "other-cells", "other-pieces"};

static void print_log(size_t length)
{
    for (size_t at = 0; at < length; at += bukzarn_word(log_bytes + at))
        printf("log %u %" PRId32 "\n", (unsigned)bukzarn_word(log_bytes + at + 4), bukzarn_number(log_bytes + at + 6));
}

static void print_leaf(const uint8_t *leaf)
{
    switch (bukzarn_word(leaf + 2)) {
    case BUKZARN_UNIT:
        printf(" unit");
        break;
    case BUKZARN_TRUTH:
        printf(" %s", bukzarn_word(leaf + 4) ? "true" : "false");
        break;
    default:
        printf(" %" PRId32, bukzarn_number(leaf + 4));
    }
}

/* The leaves from one byte of the report up to another, or up to the first record that is no leaf. */
static size_t print_leaves(size_t at, size_t end)
{
    while (at < end && bukzarn_word(report + at + 2) <= BUKZARN_NUMBER) {
        print_leaf(report + at);
        at += bukzarn_word(report + at);
    }
    printf("\n");
    return at;
}

static void print_cells(size_t at, size_t end)
{
    while (at < end) {
        size_t next = at + bukzarn_word(report + at);
        printf("cell %u", (unsigned)bukzarn_word(report + at + 4));
        if (bukzarn_word(report + at + 2) == BUKZARN_PLAIN_CELL)
            print_leaves(at + 6, next);
        else
            printf(" other\n");
        at = next;
    }
}

static void print_report(size_t length)
{
    size_t at = bukzarn_word(report);
    enum bukzarn_outcome outcome = bukzarn_outcome_of(report);
    printf("%s %" PRIu32 "\n", outcomes[outcome], bukzarn_steps_of(report));
    if (outcome == BUKZARN_DONE) {
        printf("value");
        at = print_leaves(at, length);
    }
    print_cells(at, length);
}

int main(int argc, char **argv)
{
    FILE *file = argc == 2 ? fopen(argv[1], "rb") : NULL;
    if (file == NULL) {
        fprintf(stderr, "usage: watch_c IMAGE\n");
        return 2;
    }
    size_t length = fread(image, 1, sizeof image, file);
    if (ferror(file)) {
        fprintf(stderr, "watch_c: the image cannot be read\n");
        return 2;
    }
    fclose(file);
    for (size_t i = 0; i < sizeof frame; i++)
        frame[i] = (uint8_t)i;
    uint64_t answer = bukzarn_run(image, length, frame, sizeof frame, BUDGET, log_bytes, sizeof log_bytes, report,
                                  sizeof report, work, sizeof work);
    if (bukzarn_is_run(answer)) {
        print_log(bukzarn_log_bytes(answer));
        print_report(bukzarn_report_bytes(answer));
    } else {
        printf("refused %d %zu\n", (int)bukzarn_refusal_number(answer), bukzarn_place(answer));
    }
    return 0;
}
