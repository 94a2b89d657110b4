/* The job of the image "240 bytes decoded" (bench/src/images/decode.rs) as one would write it in C. decode.lua says what is
 * read and answered; there is no limit of steps. */
#include "answers.h"

static uint8_t frame[FRAME_ROOM];
static size_t length;
static struct { int32_t greatest, sum; } decoder;
static int32_t printed[FRAME_ROOM];
static size_t prints;

typedef void watch(int32_t byte);

static void honest(int32_t byte)
{
    if (byte < 12)
        printed[prints++] = byte;
}

/* A watch that changes the sum of the decoder. */
static void harmful(int32_t byte)
{
    (void)byte;
    decoder.sum = 0;
}

/* Volatile, since the decoder does not know its watches when it is compiled. */
static watch *volatile watches[] = {honest};

/* Keeps the greatest byte, adds all up and shows each to the watches. */
static void decode(void)
{
    decoder.greatest = decoder.sum = 0;
    prints = 0;
    for (size_t i = 0; i < length; i++) {
        int32_t byte = frame[i];
        if (decoder.greatest < byte)
            decoder.greatest = byte;
        decoder.sum += byte;
        for (size_t w = 0; w < sizeof watches / sizeof *watches; w++)
            watches[w](byte);
    }
}

int main(void)
{
    struct question question;
    length = read_frame(frame);
    while (read_question(&question)) {
        watches[0] = question.harm ? harmful : honest;
        clock_t start = clock();
        for (long i = 0; i < question.calls; i++)
            decode();
        print_time(start, question.calls);
        print_answer(decoder.greatest, decoder.sum, printed, prints);
    }
    return 0;
}
