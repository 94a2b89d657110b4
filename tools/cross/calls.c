/* Makes the calls that standard input lists, and writes all that each answers and leaves, for a comparison between processors
   (tools/cross/calls.py has the layout of both). Memory that a call may write is filled with one byte before it. */
#include <stdio.h>
#include <stdlib.h>
#include <string.h>

#include "bukzarn.h"

enum { RUN, RUN_FRAMES, VALIDATE, NEED, FIXED, LOAD, STRIP };
enum { FUNCTION, NUMBER, DEPTH, COUNT, IMAGE, FRAME, LOG, OUTPUT, WORK, WORDS };

#define FILLER 0xA5

static uint32_t words[WORDS];
static uint8_t *parts[WORDS];
static uint64_t *answers;

static void fail(const char *why)
{
    fprintf(stderr, "calls: %s\n", why);
    exit(1);
}

static void *memory(size_t length)
{
    void *made = malloc(length ? length : 1);
    if (!made)
        fail("no memory");
    memset(made, FILLER, length);
    return made;
}

/* The parts of a call, those that are only read from standard input. */
static void take_parts(void)
{
    for (int part = IMAGE; part < WORDS; part++) {
        parts[part] = memory(words[part]);
        if (part <= FRAME && fread(parts[part], 1, words[part], stdin) != words[part])
            fail("the input ends inside a call");
    }
    answers = memory(8 * (size_t)words[COUNT]);
}

static uint64_t answer(void)
{
    const uint8_t *image = parts[IMAGE];
    size_t length = words[IMAGE], output = words[OUTPUT];
    switch (words[FUNCTION]) {
    case RUN:
        return bukzarn_run(image, length, parts[FRAME], words[FRAME], words[NUMBER], parts[LOG], words[LOG], parts[OUTPUT],
                           output, parts[WORK], words[WORK]);
    case VALIDATE:
        return bukzarn_validate(image, length, words[WORK], output);
    case NEED:
        return bukzarn_need(image, length, (uint32_t *)(void *)parts[OUTPUT], output / 4);
    case FIXED:
        return bukzarn_fixed(image, length, parts[OUTPUT], output);
    case LOAD:
        return bukzarn_load(words[NUMBER], words[DEPTH], parts[OUTPUT], output);
    case STRIP:
        return bukzarn_strip(image, length, (uint16_t)words[NUMBER], parts[OUTPUT], output);
    }
    fail("no such function");
    return 0;
}

static void make_call(void)
{
    if (words[FUNCTION] == RUN_FRAMES)
        bukzarn_run_frames(parts[IMAGE], words[IMAGE], parts[FRAME], words[FRAME], words[NUMBER], parts[LOG], words[LOG],
                           parts[OUTPUT], words[OUTPUT], answers, words[COUNT], parts[WORK], words[WORK]);
    else
        answers[0] = answer();
}

static void write_out(const void *from, size_t length)
{
    if (fwrite(from, 1, length, stdout) != length)
        fail("standard output is full");
}

int main(void)
{
    while (fread(words, sizeof words[0], WORDS, stdin) == WORDS) {
        take_parts();
        make_call();
        write_out(answers, 8 * (size_t)words[COUNT]);
        for (int part = LOG; part < WORDS; part++)
            write_out(parts[part], words[part]);
        for (int part = IMAGE; part < WORDS; part++)
            free(parts[part]);
        free(answers);
    }
    return fflush(stdout) ? 1 : 0;
}
