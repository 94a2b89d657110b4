/* The name under which an image travels: SHA-256 over its bytes (FIPS 180-4), as sha256sum prints it. The check finds harm,
   not damage: an image with a flipped bit may be accepted, and gives other numbers then. */
#ifndef BUKZARN_EXAMPLES_NAME_H
#define BUKZARN_EXAMPLES_NAME_H

#include <stddef.h>
#include <stdint.h>
#include <stdio.h>
#include <string.h>

enum { NAME_LEAST = 16, NAME_DIGITS = 64, NAME_BLOCK = 64 };

static const uint32_t name_rounds[64] = {
    0x428a2f98, 0x71374491, 0xb5c0fbcf, 0xe9b5dba5, 0x3956c25b, 0x59f111f1, 0x923f82a4, 0xab1c5ed5,
    0xd807aa98, 0x12835b01, 0x243185be, 0x550c7dc3, 0x72be5d74, 0x80deb1fe, 0x9bdc06a7, 0xc19bf174,
    0xe49b69c1, 0xefbe4786, 0x0fc19dc6, 0x240ca1cc, 0x2de92c6f, 0x4a7484aa, 0x5cb0a9dc, 0x76f988da,
    0x983e5152, 0xa831c66d, 0xb00327c8, 0xbf597fc7, 0xc6e00bf3, 0xd5a79147, 0x06ca6351, 0x14292967,
    0x27b70a85, 0x2e1b2138, 0x4d2c6dfc, 0x53380d13, 0x650a7354, 0x766a0abb, 0x81c2c92e, 0x92722c85,
    0xa2bfe8a1, 0xa81a664b, 0xc24b8b70, 0xc76c51a3, 0xd192e819, 0xd6990624, 0xf40e3585, 0x106aa070,
    0x19a4c116, 0x1e376c08, 0x2748774c, 0x34b0bcb5, 0x391c0cb3, 0x4ed8aa4a, 0x5b9cca4f, 0x682e6ff3,
    0x748f82ee, 0x78a5636f, 0x84c87814, 0x8cc70208, 0x90befffa, 0xa4506ceb, 0xbef9a3f7, 0xc67178f2,
};

static uint32_t name_rotate(uint32_t word, int bits)
{
    return word >> bits | word << (32 - bits);
}

/* A word for each round: those of the block, then sums of earlier ones. */
static void name_schedule(uint32_t words[64], const uint8_t *block)
{
    for (int n = 0; n < 16; n++)
        words[n] = (uint32_t)block[4 * n] << 24 | (uint32_t)block[4 * n + 1] << 16 | (uint32_t)block[4 * n + 2] << 8 |
                   block[4 * n + 3];
    for (int n = 16; n < 64; n++) {
        uint32_t near = words[n - 2], far = words[n - 15];
        uint32_t low = name_rotate(far, 7) ^ name_rotate(far, 18) ^ far >> 3;
        uint32_t high = name_rotate(near, 17) ^ name_rotate(near, 19) ^ near >> 10;
        words[n] = low + high + words[n - 7] + words[n - 16];
    }
}

/* Takes one more block into the state. */
static void name_compress(uint32_t state[8], const uint8_t *block)
{
    uint32_t words[64], s[8];
    name_schedule(words, block);
    memcpy(s, state, sizeof s);
    for (int n = 0; n < 64; n++) {
        uint32_t first = s[7] + (name_rotate(s[4], 6) ^ name_rotate(s[4], 11) ^ name_rotate(s[4], 25)) +
                         ((s[4] & s[5]) ^ (~s[4] & s[6])) + name_rounds[n] + words[n];
        uint32_t second = (name_rotate(s[0], 2) ^ name_rotate(s[0], 13) ^ name_rotate(s[0], 22)) +
                          ((s[0] & s[1]) ^ (s[0] & s[2]) ^ (s[1] & s[2]));
        memmove(s + 1, s, 7 * sizeof s[0]);
        s[4] += first;
        s[0] = first + second;
    }
    for (int n = 0; n < 8; n++)
        state[n] += s[n];
}

/* The name of an image, 64 digits. */
static void name_of(char name[NAME_DIGITS + 1], const uint8_t *image, size_t length)
{
    uint32_t state[8] = {0x6a09e667, 0xbb67ae85, 0x3c6ef372, 0xa54ff53a,
                         0x510e527f, 0x9b05688c, 0x1f83d9ab, 0x5be0cd19};
    uint8_t last[2 * NAME_BLOCK] = {0};
    size_t whole = length - length % NAME_BLOCK, rest = length - whole;
    size_t end = rest + 9 <= NAME_BLOCK ? NAME_BLOCK : 2 * NAME_BLOCK;
    for (size_t at = 0; at < whole; at += NAME_BLOCK)
        name_compress(state, image + at);
    memcpy(last, image + whole, rest);
    last[rest] = 0x80;
    for (int n = 0; n < 8; n++)
        last[end - 1 - n] = (uint8_t)((uint64_t)length * 8 >> 8 * n);
    for (size_t at = 0; at < end; at += NAME_BLOCK)
        name_compress(state, last + at);
    for (int n = 0; n < 8; n++)
        snprintf(name + 8 * n, 9, "%08lx", (unsigned long)state[n]);
}

/* Does a name begin with these digits, which are 16 at least? */
static int name_begins_with(const char name[NAME_DIGITS + 1], const char *digits)
{
    size_t count = strlen(digits);
    if (count < NAME_LEAST || count > NAME_DIGITS)
        return 0;
    for (size_t n = 0; n < count; n++)
        if (name[n] != (digits[n] >= 'A' && digits[n] <= 'F' ? digits[n] - 'A' + 'a' : digits[n]))
            return 0;
    return 1;
}

#endif
