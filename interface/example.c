/* Locks a line of text and a slip, opens both again, and shows what a damaged one gets. */
#include "saturnin.h"

#include <stdio.h>
#include <string.h>

static int failed(const char *what, uint8_t number) {
    fprintf(stderr, "%s: refused with %d\n", what, number);
    return 1;
}

static void print_hex(const char *name, const uint8_t *bytes, size_t n) {
    printf("%s ", name);
    for (size_t i = 0; i < n; i++) printf("%02x", bytes[i]);
    printf("\n");
}

int main(void) {
    static const char MESSAGE[] = "rose window, north side: 24 panes of cobalt";
    const uint8_t *message = (const uint8_t *)MESSAGE;
    size_t n = strlen(MESSAGE);
    uint8_t key[32], nonce[16], text[64], tag[32], opened[64], digest[32], block[32], slip[15];
    size_t length;
    uint8_t number;
    for (int i = 0; i < 32; i++) key[i] = (uint8_t)i;
    for (int i = 0; i < 16; i++) nonce[i] = (uint8_t)(100 + i);

    if ((number = saturnin_hash(message, n, digest, 32)) != 0) return failed("hash", number);
    print_hex("digest", digest, 32);

    number = saturnin_seal(key, 32, nonce, 16, (const uint8_t *)"box 7", 5, message, n, text, n, tag, 32);
    if (number != 0) return failed("seal", number);
    print_hex("text", text, n);
    print_hex("tag", tag, 32);
    number = saturnin_open(key, 32, nonce, 16, (const uint8_t *)"box 7", 5, text, n, tag, 32, opened, n);
    if (number != 0) return failed("open", number);
    printf("opened %.*s\n", (int)n, (const char *)opened);
    text[0] ^= 1;
    number = saturnin_open(key, 32, nonce, 16, (const uint8_t *)"box 7", 5, text, n, tag, 32, opened, n);
    printf("damaged: refused with %d\n", number);

    nonce[15]++;
    number = saturnin_short_seal(key, 32, nonce, 16, (const uint8_t *)"24 panes", 8, block, 32);
    if (number != 0) return failed("short seal", number);
    print_hex("block", block, 32);
    number = saturnin_short_open(key, 32, nonce, 16, block, 32, slip, 15, &length);
    if (number != 0) return failed("short open", number);
    printf("opened %.*s\n", (int)length, (const char *)slip);

    if ((number = saturnin_encrypt(key, 32, 0, 10, block, 32)) != 0) return failed("encrypt", number);
    if ((number = saturnin_decrypt(key, 32, 0, 10, block, 32)) != 0) return failed("decrypt", number);
    print_hex("block", block, 32);
    printf("a separator of 16: refused with %d\n", saturnin_encrypt(key, 32, 16, 10, block, 32));
    printf("a key of 31 bytes: refused with %d\n", saturnin_encrypt(key, 31, 0, 10, block, 32));
    return 0;
}
