/* collide COUNT: prints COUNT names of 12 bytes whose hashes fall into one place of a table of 8,192 places.
 *
 * Net names are hashed by a fold hasher with a fixed seed, all bytes at once: of 12 bytes the first eight and the last eight.
 * The names are found by trying: seven bytes are the same in all, and the last five are counted through.
 * gcc -O2 -o collide collide.c
 */
#include <stdint.h>
#include <stdio.h>
#include <stdlib.h>
#include <string.h>

#define MULTIPLIER 0x9e3779b97f4a7c15u
#define PLACES 8192u

static const char letters[] = "abcdefghijklmnopqrstuvwxyzABCDEFGHIJKLMNOPQRSTUVWXYZ0123456789_.";

static uint64_t folded(uint64_t a, uint64_t b) {
    unsigned __int128 product = (unsigned __int128)a * b;
    return (uint64_t)product ^ (uint64_t)(product >> 64);
}

static uint64_t read_8(const char *bytes) {
    uint64_t number = 0;
    for (int i = 7; i >= 0; i--) number = number << 8 | (unsigned char)bytes[i];
    return number;
}

static uint64_t hash_of(const char *name) {
    return folded(read_8(name) ^ (0x243f6a8885a308d3u + 12), read_8(name + 4) ^ MULTIPLIER);
}

int main(int argc, char **argv) {
    long count = argc > 1 ? atol(argv[1]) : 10;
    char name[13] = "n______.....";
    for (uint32_t tried = 0; count > 0 && tried < 1u << 30; tried++) {
        for (int i = 0; i < 5; i++) name[7 + i] = letters[tried >> (24 - 6 * i) & 63];
        uint64_t hash = hash_of(name);
        if (((uint32_t)(hash ^ hash >> 32) & (PLACES - 1)) == 77) {
            puts(name);
            count--;
        }
    }
    return count > 0;
}
