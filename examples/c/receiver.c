/* A receiver: reads a recording or a pipe, frames of one length one after another, runs an image over each, and prints a
   line for each printed number: frame, domain, number, before it waits for the next frame. Frames whose run is not done are
   counted and told at the end. It makes a call for each frame, as for frames that come one by one; bukzarn_run_frames would
   take many of a recording at once. With a name it refuses another image than the one of that name (name.h).

   Build and run in the repository's root:
       (cd crates/bukzarn && rt lib)
       gcc -std=c99 -Wall -Wextra -pedantic -O2 -Iinclude -o target/receiver_c \
           examples/c/receiver.c crates/bukzarn/out/libbukzarn.a
       target/receiver_c examples/ascent/watched.img examples/ascent/ascent.frames 12

   Exit status: 0 every run is done, 1 refused or another image, 2 wrong use, 3 reading or writing failed, 4 a run ended otherwise. */
#include <inttypes.h>
#include <stdio.h>
#include <stdlib.h>

#include "bukzarn.h"
#include "name.h"

enum { DONE = 0, REFUSED = 1, USAGE = 2, FAILED = 3, OTHERWISE = 4 };
enum { BUDGET = 100000, LOG_LENGTH = 16384, FRAME_LIMIT = 65536 };

/* One byte more than an image may have, so that a longer file is seen to be too long. */
static uint8_t image[BUKZARN_IMAGE_LIMIT + 1];
static uint8_t frame[FRAME_LIMIT];
static uint8_t log_bytes[LOG_LENGTH];
static uint8_t report[BUKZARN_REPORT_LENGTH];
static uint8_t work[BUKZARN_WORK_LENGTH];

/* The image's length, or -1 if its file cannot be read. */
static long read_image(const char *name)
{
    FILE *file = fopen(name, "rb");
    if (file == NULL)
        return -1;
    size_t length = fread(image, 1, sizeof image, file);
    int failed = ferror(file);
    fclose(file);
    return failed ? -1 : (long)length;
}

/* Is this the image of the name that came with it? Else says what it is. */
static int has_name(size_t image_length, const char *digits)
{
    char name[NAME_DIGITS + 1];
    name_of(name, image, image_length);
    if (name_begins_with(name, digits))
        return 1;
    fprintf(stderr, "receiver_c: this is another image: its name is %s\n", name);
    return 0;
}

static void print_log(unsigned long number, size_t length)
{
    for (size_t at = 0; at < length; at += bukzarn_word(log_bytes + at))
        printf("%lu,%u,%" PRId32 "\n", number, (unsigned)bukzarn_word(log_bytes + at + 4),
               bukzarn_number(log_bytes + at + 6));
}

/* Runs the image over each frame, till the recording ends. */
static int receive(size_t image_length, FILE *recording, size_t length)
{
    unsigned long number = 0, otherwise = 0;
    size_t got;
    printf("frame,domain,number\n");
    while ((got = fread(frame, 1, length, recording)) == length) {
        uint64_t answer = bukzarn_run(image, image_length, frame, length, BUDGET, log_bytes, sizeof log_bytes, report,
                                      sizeof report, work, sizeof work);
        if (!bukzarn_is_run(answer)) {
            fprintf(stderr, "refused %d %zu\n", (int)bukzarn_refusal_number(answer), bukzarn_place(answer));
            return REFUSED;
        }
        print_log(number++, bukzarn_log_bytes(answer));
        otherwise += bukzarn_outcome_of(report) != BUKZARN_DONE;
        if (fflush(stdout) != 0)
            break;
    }
    if (ferror(recording) || fflush(stdout) != 0 || ferror(stdout)) {
        fprintf(stderr, "receiver_c: reading or writing failed\n");
        return FAILED;
    }
    if (got != 0 || number == 0) {
        fprintf(stderr, "receiver_c: frame %lu has %zu of %zu bytes\n", number, got, length);
        return FAILED;
    }
    fprintf(stderr, "%lu frames, %lu of them not done\n", number, otherwise);
    return otherwise == 0 ? DONE : OTHERWISE;
}

int main(int argc, char **argv)
{
    char *end = "";
    long length = argc == 4 || argc == 5 ? strtol(argv[3], &end, 10) : 0;
    if (length < 1 || length > FRAME_LIMIT || *end != '\0') {
        fprintf(stderr, "usage: receiver_c IMAGE RECORDING LENGTH [NAME], with a length from 1 to %d\n", FRAME_LIMIT);
        return USAGE;
    }
    long image_length = read_image(argv[1]);
    if (image_length >= 0 && argc == 5 && !has_name((size_t)image_length, argv[4]))
        return REFUSED;
    FILE *recording = fopen(argv[2], "rb");
    if (image_length < 0 || recording == NULL) {
        fprintf(stderr, "receiver_c: the %s cannot be read\n", image_length < 0 ? "image" : "recording");
        return FAILED;
    }
    int status = receive((size_t)image_length, recording, (size_t)length);
    fclose(recording);
    return status;
}
