/* Reads every column of every row of a file's metadata tables: the baseline of bench/reader. It trusts the file. */
#define _GNU_SOURCE
#include <stdint.h>
#include <stdio.h>
#include <stdlib.h>
#include <string.h>

static const unsigned char *file;

static uint32_t u16(const unsigned char *p) { return p[0] | p[1] << 8; }
static uint32_t u32(const unsigned char *p) { return u16(p) | u16(p + 2) << 16; }

/* Column kinds: 1 two bytes, 2 four bytes, 3 strings, 4 guid, 5 blob, 0x40 + t a row of table t, 0x80 + c a coded index. */
#define T(t) (0x40 + (t))
#define C(c) (0x80 + (c))
static const unsigned char schema[64][10] = {
    [0x00] = {1, 3, 4, 4, 4},          [0x01] = {C(2), 3, 3},     [0x02] = {2, 3, 3, C(0), T(4), T(6)},
    [0x04] = {1, 3, 5},                [0x06] = {2, 1, 1, 3, 5, T(8)}, [0x20] = {2, 1, 1, 1, 1, 2, 5, 3, 3},
    [0x23] = {1, 1, 1, 1, 2, 5, 3, 3, 5}, [0x08] = {1, 1, 3},     [0x0a] = {C(1), 3, 5},
};
static const unsigned char coded[3][6] = {{2, 2, 1, 0x1b, 0xff}, {3, 2, 1, 0x1a, 6, 0xff}, {2, 0, 0x1a, 0x23, 1, 0xff}};
static uint32_t counts[64];

static int width(unsigned char kind, int heaps) {
    if (kind == 1) return 2;
    if (kind == 2) return 4;
    if (kind <= 5) return heaps >> (kind - 3) & 1 ? 4 : 2;
    if (kind < 0x80) return counts[kind - 0x40] >= 65536 ? 4 : 2;
    const unsigned char *c = coded[kind - 0x80];
    for (int k = 1; c[k] != 0xff; k++)
        if (counts[c[k]] >= 1u << (16 - c[0])) return 4;
    return 2;
}

int main(int argc, char **argv) {
    FILE *in = fopen(argv[argc - 1], "rb");
    if (!in) return 1;
    fseek(in, 0, SEEK_END);
    long size = ftell(in);
    rewind(in);
    unsigned char *bytes = malloc(size);
    if (!bytes || fread(bytes, 1, size, in) != (size_t)size) return 1;
    file = bytes;
    const unsigned char *root = memmem(file, size, "BSJB", 4);
    const unsigned char *tables = memmem(file, size, "#~", 2);
    tables = root + u32(tables - 8);
    uint64_t valid = u32(tables + 8) | (uint64_t)u32(tables + 12) << 32;
    const unsigned char *p = tables + 24;
    for (int t = 0; t < 64; t++)
        if (valid >> t & 1) counts[t] = u32(p), p += 4;
    uint32_t rows = 0, sum = 0;
    for (int t = 0; t < 64; t++) {
        int widths[10], columns = 0;
        for (; schema[t][columns]; columns++) widths[columns] = width(schema[t][columns], tables[6]);
        for (uint32_t n = 0; n < counts[t]; n++, rows++)
            for (int k = 0; k < columns; k++) {
                sum += widths[k] == 2 ? u16(p) : u32(p);
                p += widths[k];
            }
    }
    printf("%u rows, sum %u\n", rows, sum);
    return 0;
}
