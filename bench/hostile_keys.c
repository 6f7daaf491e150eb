/* hostile_keys: out keys (UDP from SRC) that collide under hashers whose start everyone knows.
 *
 *   hostile_keys pairs SRC COUNT    probes of a layer's pairs, hashed by FoldHasher from its fixed seed
 *   hostile_keys rows SRC COUNT     identities that begin at one of 16,384 rows (vsw_words, specs/Slot.antt)
 *
 * SRC is an IPv4 address as a hexadecimal number.  Prints a line "DST SOURCE-PORT DESTINATION-PORT" for each.
 */
#include <stdint.h>
#include <stdio.h>
#include <stdlib.h>
#include <string.h>

enum { ROWS = 16384, STARTS = 1 << 14, RUN = 64, VXLAN = 4789 };

static const uint64_t MULTIPLIER = 0x9e3779b97f4a7c15;

/* A factor for each of a key's first fifteen words (vsw_words, specs/Slot.antt). */
static const uint64_t FACTORS[] = {
    0x6a09e667f3bcc909, 0xbb67ae8584caa73b, 0x3c6ef372fe94f82b, 0xa54ff53a5f1d36f1, 0x510e527fade682d1,
    0x9b05688c2b3e6c1f, 0x1f83d9abfb41bd6b, 0x5be0cd19137e2179, 0xcbbb9d5dc1059ed9, 0x629a292a367cd507,
    0x9159015a3070dd17, 0x152fecd8f70e5939, 0x67332667ffc00b31, 0x8eb44a8768581511, 0xdb0c2e0d64f98fa7,
};

/* The row, of 16,384, at which the search for a key begins. */
static uint64_t slot(const uint64_t *words)
{
    uint64_t sum = 0;
    for (int i = 0; i < 15; i++)
        sum += FACTORS[i] * words[i];
    return ((sum ^ sum >> 32) * MULTIPLIER >> 32) * ROWS >> 32;
}

static uint64_t folded(uint64_t a, uint64_t b)
{
    unsigned __int128 product = (unsigned __int128)a * b;
    return (uint64_t)product ^ (uint64_t)(product >> 64);
}

/* What FoldHasher makes of a probe (vsw_layerflow, specs/Hashed.antt): one number of 128 bits, and one of 64. */
static int collides(uint64_t src, uint32_t dst, unsigned sport, unsigned dport)
{
    uint64_t rest = (uint64_t)17 << 40 | (uint64_t)sport << 16 | dport;
    uint64_t state = folded(rest ^ (0x243f6a8885a308d3 + 16), MULTIPLIER);
    uint64_t hash = folded(state ^ (src << 32 | dst), MULTIPLIER ^ 16);
    return ((uint32_t)(hash ^ hash >> 32) & (STARTS - 1)) < RUN;
}

/* Whether the search for a packet to 02:00:00:00:00:99 from 02:00:00:00:00:01 begins at one row. */
static int begins_there(uint64_t src, uint32_t dst, unsigned sport, unsigned dport)
{
    uint64_t words[16] = { 0 };
    words[0] = 1 | 1 << 4 | 1 << 5 | 17 << 8 | (uint64_t)0x0800 << 16 | (uint64_t)sport << 32 | (uint64_t)dport << 48;
    words[2] = 0x020000000099;
    words[3] = 0x020000000001;
    words[8] = src << 32 | dst;
    return slot(words) == 5;
}

int main(int argc, char **argv)
{
    if (argc != 4) {
        fprintf(stderr, "usage: hostile_keys pairs|rows SRC COUNT\n");
        return 2;
    }
    int rows = !strcmp(argv[1], "rows");
    uint64_t src = strtoul(argv[2], 0, 16);
    long count = atol(argv[3]);
    for (uint32_t dst = 0x0b000001;; dst++)
        for (unsigned sport = 1024; sport < 65536; sport += 97)
            for (unsigned dport = 1; dport < VXLAN; dport += 3)
                if (rows ? begins_there(src, dst, sport, dport) : collides(src, dst, sport, dport)) {
                    if (count-- <= 0)
                        return 0;
                    printf("%u %u %u\n", dst, sport, dport);
                }
}
