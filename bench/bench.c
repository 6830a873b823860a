/* Times the proved library and the plain C on the same buffers, after a comparison of what they give, byte by byte.
 * `bench` prints nanoseconds for a call and the ratio; `bench OPERATION SIZE WHOSE COUNT` only makes so many calls, for a
 * count of instructions. */
#include "plain.h"
#include "../interface/saturnin.h"

#include <stdio.h>
#include <stdlib.h>
#include <string.h>
#include <time.h>

enum { MOST = 65536, ROUNDS = 41 };

static uint8_t key[32], nonce[16], associated[52], message[MOST], text[MOST], opened[MOST], tag[32], digest[32];

static void fill(uint8_t *bytes, size_t n, uint32_t seed) {
    for (size_t i = 0; i < n; i++) {
        seed = seed * 1664525 + 1013904223;
        bytes[i] = (uint8_t)(seed >> 24);
    }
}

/* One call: 'h' hash, 's' seal, 'o' open; 'l' by the proved library, 'c' by the plain C. */
static int call(char operation, char whose, size_t n) {
    if (operation == 'h') {
        if (whose == 'l') return saturnin_hash(message, n, digest, 32);
        plain_hash(message, n, digest);
        return 0;
    }
    if (operation == 's') {
        if (whose == 'l') return saturnin_seal(key, 32, nonce, 16, associated, 52, message, n, text, n, tag, 32);
        plain_seal(key, nonce, 16, associated, 52, message, n, text, tag);
        return 0;
    }
    if (whose == 'l') return saturnin_open(key, 32, nonce, 16, associated, 52, text, n, tag, 32, opened, n);
    return plain_open(key, nonce, 16, associated, 52, text, n, tag, opened);
}

static void differ(const char *what, size_t n) {
    fprintf(stderr, "library and plain C differ: %s of %zu bytes\n", what, n);
    exit(1);
}

static void compare(size_t n) {
    static uint8_t other[MOST];
    uint8_t other_tag[32];
    if (call('h', 'l', n) != 0) differ("hash", n);
    memcpy(other, digest, 32);
    call('h', 'c', n);
    if (memcmp(other, digest, 32) != 0) differ("hash", n);
    if (call('s', 'l', n) != 0) differ("seal", n);
    memcpy(other, text, n);
    memcpy(other_tag, tag, 32);
    call('s', 'c', n);
    if (memcmp(other, text, n) != 0 || memcmp(other_tag, tag, 32) != 0) differ("seal", n);
    for (const char *whose = "lc"; *whose; whose++) {
        memset(opened, 1, n);
        if (call('o', *whose, n) != 0 || memcmp(opened, message, n) != 0) differ("open", n);
        tag[31] ^= 1;
        if (call('o', *whose, n) != 11) differ("damaged open", n);
        for (size_t i = 0; i < n; i++)
            if (opened[i] != 0) differ("damaged open", n);
        tag[31] ^= 1;
    }
}

static double now(void) {
    struct timespec t;
    clock_gettime(CLOCK_MONOTONIC, &t);
    return (double)t.tv_sec * 1e9 + (double)t.tv_nsec;
}

/* The best of many turns, in nanoseconds for a call; the two take turns, so that both meet the same machine. */
static void measure(char operation, const char *name, size_t n) {
    double best[2] = {1e18, 1e18};
    size_t calls = 1 + 1000000 / (n + 100);
    for (int round = 0; round < ROUNDS; round++)
        for (int i = 0; i < 2; i++) {
            double from = now();
            for (size_t j = 0; j < calls; j++) call(operation, "lc"[i], n);
            double took = (now() - from) / (double)calls;
            if (took < best[i]) best[i] = took;
        }
    printf("%-5s %6zu bytes: library %10.0f ns, plain C %10.0f ns, ratio %.2f\n", name, n, best[0], best[1],
           best[1] / best[0]);
}

int main(int argc, char **argv) {
    static const size_t SIZES[] = {64, 928, 65536};
    fill(key, 32, 1), fill(nonce, 16, 2), fill(associated, 52, 3), fill(message, MOST, 4);
    if (argc == 5) {
        size_t n = (size_t)atol(argv[2]);
        if (n > MOST) return 2;
        call('s', argv[3][0], n);
        for (long i = 0; i < atol(argv[4]); i++) call(argv[1][0], argv[3][0], n);
        return 0;
    }
    for (size_t n = 0; n < 200; n++) compare(n);
    for (int i = 0; i < 3; i++) compare(SIZES[i]);
    for (int i = 0; i < 3; i++) measure('h', "hash", SIZES[i]);
    for (int i = 0; i < 3; i++) measure('s', "seal", SIZES[i]);
    for (int i = 0; i < 3; i++) measure('o', "open", SIZES[i]);
    return 0;
}
