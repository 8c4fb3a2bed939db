/* Spells packets of 1,016 bytes and reads them again, as the proved codec does: the baseline of bench/packets. */
#include <stdbool.h>
#include <stdint.h>
#include <stdio.h>
#include <stdlib.h>
#include <string.h>

enum { HEADER_CHECK = 8, DATA_CHECK = 12, COMMAND = 16, SEQ = 20, REPLY_SEQ = 22, FLAGS = 24, SIZE = 28, HEADER = 32 };
enum { MAX_PAYLOAD = 1024, MAX_PACKET = HEADER + MAX_PAYLOAD, PROGRAM = 3 };

struct packet {
    uint32_t command;
    uint16_t seq, reply_seq;
    uint32_t flags, size;
    unsigned char payload[MAX_PAYLOAD];
};

static void put16(unsigned char *at, uint16_t n) { memcpy(at, &n, 2); }
static void put32(unsigned char *at, uint32_t n) { memcpy(at, &n, 4); }

static uint16_t get16(const unsigned char *at) {
    uint16_t n;
    memcpy(&n, at, 2);
    return n;
}

static uint32_t get32(const unsigned char *at) {
    uint32_t n;
    memcpy(&n, at, 4);
    return n;
}

static uint32_t sum(const unsigned char *at, uint32_t count) {
    uint32_t n = 0;
    for (uint32_t k = 0; k < count; k++) n += at[k];
    return n;
}

static uint32_t header_sum(const unsigned char *bytes) {
    return sum(bytes, HEADER_CHECK) + sum(bytes + DATA_CHECK, HEADER - DATA_CHECK);
}

/* Writes a packet and gives its length. */
static __attribute__((noinline)) uint32_t encode(const struct packet *p, unsigned char *out) {
    memcpy(out, "MSpktV1", 8);
    put32(out + DATA_CHECK, sum(p->payload, p->size));
    put32(out + COMMAND, p->command);
    put16(out + SEQ, p->seq);
    put16(out + REPLY_SEQ, p->reply_seq);
    put32(out + FLAGS, p->flags);
    put32(out + SIZE, p->size);
    put32(out + HEADER_CHECK, header_sum(out));
    memcpy(out + HEADER, p->payload, p->size);
    return HEADER + p->size;
}

/* Reads the packet at the front of some bytes; false where there is none that is whole. */
static __attribute__((noinline)) bool decode(const unsigned char *bytes, uint32_t length, struct packet *p) {
    if (length < HEADER || memcmp(bytes, "MSpktV1", 8) != 0) return false;
    if (get32(bytes + HEADER_CHECK) != header_sum(bytes) || get32(bytes + FLAGS) > 1) return false;
    uint32_t size = get32(bytes + SIZE);
    if (size > MAX_PAYLOAD || length < HEADER + size) return false;
    if (sum(bytes + HEADER, size) != get32(bytes + DATA_CHECK)) return false;
    p->command = get32(bytes + COMMAND);
    p->seq = get16(bytes + SEQ);
    p->reply_seq = get16(bytes + REPLY_SEQ);
    p->flags = get32(bytes + FLAGS);
    p->size = size;
    memcpy(p->payload, bytes + HEADER, size);
    return true;
}

int main(int argc, char **argv) {
    static struct packet sent, read;
    static unsigned char bytes[MAX_PACKET];
    uint32_t count = argc > 1 ? strtoul(argv[1], 0, 10) : 0, whole = 0, total = 0;
    sent.command = PROGRAM;
    sent.size = 1016;
    for (int k = 0; k < 1016; k++) sent.payload[k] = k % 251;
    for (uint32_t n = 0; n < count; n++) {
        sent.seq = n % 65536;
        if (decode(bytes, encode(&sent, bytes), &read)) {
            whole++;
            total += read.seq;
        }
    }
    printf("%u whole, sum %u\n", whole, total);
    return 0;
}
