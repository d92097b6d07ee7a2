/* The CRC-24Q of standard input, by one table of 256 entries: the measure of tools/bench. */
#include <stdint.h>
#include <stdio.h>
#include <unistd.h>

int main(void) {
    static uint32_t table[256];
    static uint8_t block[65536];
    uint32_t rest = 0;
    for (uint32_t byte = 0; byte < 256; byte++) {
        uint32_t entry = byte << 16;
        for (int bit = 0; bit < 8; bit++)
            entry = entry << 1 ^ (entry & 0x800000 ? 0x1864CFB : 0);
        table[byte] = entry;
    }
    for (ssize_t n; (n = read(0, block, sizeof block)) > 0;)
        for (ssize_t i = 0; i < n; i++)
            rest = (rest << 8 & 0xFFFFFF) ^ table[rest >> 16 ^ block[i]];
    printf("%06x\n", rest);
    return 0;
}
