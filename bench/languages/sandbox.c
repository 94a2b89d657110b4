/* Calls decode.wat in C, as wasm2c of Debian 12 (wabt 1.0.32) writes it: a compiled sandbox with fuel. decode.lua says what is
 * read and answered. */
#include "answers.h"
#include "decode.h"
#include "wasm-rt-impl.h"

#define PRINTED 4096

static Z_decode_instance_t module;

/* One call with so much fuel; whether it came to its end. */
static int run(uint32_t fuel)
{
    if (wasm_rt_impl_try() != 0)
        return 0;
    *Z_decodeZ_fuel(&module) = fuel;
    Z_decodeZ_decode(&module);
    return 1;
}

static void print_left(void)
{
    const uint8_t *memory = Z_decodeZ_memory(&module)->data;
    int32_t printed[FRAME_ROOM];
    memcpy(printed, memory + PRINTED, sizeof printed);
    print_answer((int32_t)*Z_decodeZ_greatest(&module), (int32_t)*Z_decodeZ_sum(&module), printed, *Z_decodeZ_prints(&module));
}

int main(void)
{
    struct question question;
    wasm_rt_init();
    Z_decode_init_module();
    Z_decode_instantiate(&module);
    *Z_decodeZ_length(&module) = (uint32_t)read_frame(Z_decodeZ_memory(&module)->data);
    while (read_question(&question)) {
        int done = 0;
        *Z_decodeZ_watch(&module) = question.harm;
        clock_t start = clock();
        for (long i = 0; i < question.calls; i++)
            done = run((uint32_t)question.limit);
        print_time(start, question.calls);
        if (done) {
            print_left();
        } else {
            printf("\n");
            fflush(stdout);
        }
    }
    return 0;
}
