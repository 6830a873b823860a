/* Measures the stack that sealing a sheet needs: the seal runs on a stack of its own that was painted before, and the lowest
 * byte that is not as it was painted tells how deep it went. */
#include <stdint.h>
#include <stdio.h>
#include <string.h>
#include <ucontext.h>

uint8_t sheet_stack_seal(uint8_t *memory, size_t memory_length, const uint8_t *key, uint32_t place, const uint8_t *label,
                         size_t label_length, const uint8_t *message, size_t message_length, uint8_t *record,
                         size_t record_length);

enum { STACK = 1 << 20, PAINT = 0xa5 };

static uint8_t stack[STACK] __attribute__((aligned(64)));
static uint8_t memory[4096], key[32], label[46], message[928], record[1024], answer;
static const uint8_t *entry;
static ucontext_t here, there;

static void __attribute__((noinline)) seal(void) {
    entry = __builtin_frame_address(0);
    answer = sheet_stack_seal(memory, sizeof memory, key, 3, label, sizeof label, message, sizeof message, record, sizeof record);
}

int main(void) {
    memset(message, 'x', sizeof message);
    memset(stack, PAINT, sizeof stack);
    getcontext(&there);
    there.uc_stack.ss_sp = stack;
    there.uc_stack.ss_size = sizeof stack;
    there.uc_link = &here;
    makecontext(&there, seal, 0);
    swapcontext(&here, &there);
    const uint8_t *lowest = stack;
    while (*lowest == PAINT) lowest++;
    if (answer != 0 || memcmp(memory + 3072, record, 1024) != 0) {
        fprintf(stderr, "the seal was not done: %d\n", answer);
        return 1;
    }
    printf("a seal of 928 bytes: %zu bytes of stack\n", (size_t)(entry - lowest));
    return 0;
}
