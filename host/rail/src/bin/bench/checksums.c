/* CRC32c (RFC 9260, Appendix A) twice: sliced by 8, as it is commonly written in C for a little-endian machine, and by the processor's own instruction. */
#include <stdbool.h>
#include <stddef.h>
#include <stdint.h>
#include <string.h>

static uint32_t table[8][256];

void sliced_ready(void) {
    for (uint32_t byte = 0; byte < 256; byte++) {
        uint32_t c = byte;
        for (int bit = 0; bit < 8; bit++)
            c = c & 1 ? c >> 1 ^ 0x82f63b78 : c >> 1;
        table[0][byte] = c;
    }
    for (int k = 1; k < 8; k++)
        for (int byte = 0; byte < 256; byte++)
            table[k][byte] = table[k - 1][byte] >> 8 ^ table[0][table[k - 1][byte] & 255];
}

uint32_t sliced_crc32c(const uint8_t *bytes, size_t count) {
    uint32_t c = 0xffffffff;
    for (; count >= 8; bytes += 8, count -= 8) {
        uint32_t low, high;
        memcpy(&low, bytes, 4);
        memcpy(&high, bytes + 4, 4);
        low ^= c;
        c = table[7][low & 255] ^ table[6][low >> 8 & 255] ^ table[5][low >> 16 & 255] ^ table[4][low >> 24] ^
            table[3][high & 255] ^ table[2][high >> 8 & 255] ^ table[1][high >> 16 & 255] ^ table[0][high >> 24];
    }
    for (; count > 0; bytes++, count--)
        c = c >> 8 ^ table[0][(c ^ *bytes) & 255];
    return ~c;
}

#if defined(__x86_64__)

#include <nmmintrin.h>
#define WITH_INSTRUCTION __attribute__((target("sse4.2")))
#define EIGHT(c, word) (uint32_t)_mm_crc32_u64(c, word)
#define ONE(c, byte) _mm_crc32_u8(c, byte)

bool has_crc32c_instruction(void) {
    return __builtin_cpu_supports("sse4.2");
}

#elif defined(__aarch64__)

#pragma GCC target("+crc")
#include <arm_acle.h>
#include <sys/auxv.h>
#define WITH_INSTRUCTION
#define EIGHT(c, word) __crc32cd(c, word)
#define ONE(c, byte) __crc32cb(c, byte)

bool has_crc32c_instruction(void) {
    return getauxval(AT_HWCAP) & HWCAP_CRC32;
}

#endif

WITH_INSTRUCTION uint32_t instruction_crc32c(const uint8_t *bytes, size_t count) {
    uint32_t c = 0xffffffff;
    for (; count >= 8; bytes += 8, count -= 8) {
        uint64_t word;
        memcpy(&word, bytes, 8);
        c = EIGHT(c, word);
    }
    for (; count > 0; bytes++, count--)
        c = ONE(c, *bytes);
    return ~c;
}
