/* What the programs in C read and answer: decode.lua says it in words. */
#include <inttypes.h>
#include <stdint.h>
#include <stdio.h>
#include <string.h>
#include <time.h>

#define FRAME_ROOM 4096

struct question {
    long calls, limit;
    int harm;
};

/* The frame, in hexadecimal on the first line; its length. */
static size_t read_frame(uint8_t *frame)
{
    char line[2 * FRAME_ROOM + 2];
    size_t length = 0;
    unsigned byte;
    if (fgets(line, sizeof line, stdin) != NULL)
        while (length < FRAME_ROOM && sscanf(line + 2 * length, "%2x", &byte) == 1)
            frame[length++] = (uint8_t)byte;
    return length;
}

static int read_question(struct question *question)
{
    char line[100], watch[20];
    if (fgets(line, sizeof line, stdin) == NULL)
        return 0;
    if (sscanf(line, "%ld %ld %19s", &question->calls, &question->limit, watch) != 3)
        return 0;
    question->harm = strcmp(watch, "harmful") == 0;
    return 1;
}

static void print_time(clock_t start, long calls)
{
    printf("%.1f", (double)(clock() - start) * (1e9 / CLOCKS_PER_SEC) / (double)calls);
}

/* What the last call left, behind its time. */
static void print_answer(int32_t greatest, int32_t sum, const int32_t *printed, size_t prints)
{
    printf(" %" PRId32 " %" PRId32 " %" PRId32, sum - greatest, greatest, sum);
    for (size_t i = 0; i < prints; i++)
        printf(" %" PRId32, printed[i]);
    printf("\n");
    fflush(stdout);
}
