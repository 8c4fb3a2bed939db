/* Makes the generated assembly of N classes: the baseline of bench/builder. Its heaps stay below 64 KB, so each index
 * takes two bytes. */
#include <stdint.h>
#include <stdio.h>
#include <stdlib.h>
#include <string.h>

typedef struct {
    unsigned char *bytes;
    size_t size, room;
} Buffer;

static void grow(Buffer *b, const void *bytes, size_t count) {
    if (b->size + count > b->room) {
        b->room = 2 * (b->size + count);
        b->bytes = realloc(b->bytes, b->room);
        if (!b->bytes) abort();
    }
    memcpy(b->bytes + b->size, bytes, count);
    b->size += count;
}

static void put(unsigned char *at, uint32_t n, int width) {
    for (int k = 0; k < width; k++) at[k] = n >> (8 * k);
}

static void number(Buffer *b, uint32_t n, int width) {
    unsigned char bytes[4];
    put(bytes, n, width);
    grow(b, bytes, width);
}

static void pad(Buffer *b) {
    grow(b, "\0\0\0", (4 - b->size % 4) % 4);
}

static uint32_t round_up(uint32_t step, uint32_t n) {
    return (n + step - 1) / step * step;
}

/* The place of a text that is added to a heap with the zero behind it. */
static uint32_t name(Buffer *strings, const char *text) {
    uint32_t place = strings->size;
    grow(strings, text, strlen(text) + 1);
    return place;
}

/* The place of a signature that is added to a heap behind its length. */
static uint32_t blob(Buffer *blobs, const void *bytes, size_t count) {
    uint32_t place = blobs->size;
    number(blobs, count, 1);
    grow(blobs, bytes, count);
    return place;
}

typedef struct {
    Buffer strings, blobs, content, types, methods;
} Parts;

static uint32_t methods_so_far(const Parts *p) {
    return p->methods.size / 14;
}

static void class(Parts *p, const char *text) {
    uint32_t namespace = name(&p->strings, "Made");
    number(&p->types, 0x181, 4);
    number(&p->types, name(&p->strings, text), 2);
    number(&p->types, namespace, 2);
    number(&p->types, 1 << 2 | 1, 2);
    number(&p->types, 1, 2);
    number(&p->types, methods_so_far(p) + 1, 2);
}

static void method(Parts *p, const char *text, const char *signature, size_t length, const unsigned char *body, size_t size) {
    number(&p->methods, 0x2048 + p->content.size, 4);
    number(&p->methods, 0, 2);
    number(&p->methods, 0x96, 2);
    number(&p->methods, name(&p->strings, text), 2);
    number(&p->methods, blob(&p->blobs, signature, length), 2);
    number(&p->methods, 1, 2);
    grow(&p->content, body, size);
    pad(&p->content);
}

static void numbered(Parts *p, uint32_t k) {
    static const unsigned char first[] = {0x0A, 0x02, 0x2A};
    unsigned char body[] = {0x86, 0x02, 0x17, 0x5F, 0x2D, 0x0D, 0x02, 0x20, 0, 0, 0, 0, 0x58, 0x28, 0, 0, 0, 0, 0x2A,
                            0x02, 0x19, 0x5A, 0x20, 0, 0, 0, 0, 0x58, 0x28, 0, 0, 0, 0, 0x2A};
    char text[16];
    snprintf(text, sizeof text, "C%u", k);
    class(p, text);
    put(body + 8, k, 4);
    put(body + 14, 0x06000000 + k, 4);
    put(body + 23, k, 4);
    put(body + 29, 0x06000000 + k, 4);
    if (k == 0) method(p, "F", "\0\1\10\10", 4, first, sizeof first);
    else method(p, "F", "\0\1\10\10", 4, body, sizeof body);
}

static void counts(Buffer *tables, uint32_t types, uint32_t methods) {
    const uint32_t rows[14] = {1, 1, types, 0, methods, 0, 0, 0, 0, 0, 0, 1, 1, 0};
    for (int k = 0; k < 14; k++) number(tables, rows[k], 4);
}

static void numbers(Buffer *b, const uint32_t *list, const int *widths, int count) {
    for (int k = 0; k < count; k++) number(b, list[k], widths[k]);
}

/* The stream `#~`. */
static Buffer tables(const Parts *p, uint32_t made, uint32_t library, uint32_t space, uint32_t object) {
    static const unsigned char head[24] = {0, 0, 0, 0, 2, 0, 0, 1, 0x57, 0x86, 0x02, 0x28, 0x09, 0x02, 0, 0,
                                           0, 0x78, 0x01, 0x33, 0, 0x14, 0, 0};
    Buffer t = {0};
    grow(&t, head, sizeof head);
    counts(&t, p->types.size / 14, methods_so_far(p));
    numbers(&t, (uint32_t[]){0, made, 1, 0, 0}, (int[]){2, 2, 2, 2, 2}, 5);
    numbers(&t, (uint32_t[]){1 << 2 | 2, object, space}, (int[]){2, 2, 2}, 3);
    grow(&t, p->types.bytes, p->types.size);
    grow(&t, p->methods.bytes, p->methods.size);
    numbers(&t, (uint32_t[]){0x8004, 1, 0, 0, 0, 0, 0, made, 0}, (int[]){4, 2, 2, 2, 2, 4, 2, 2, 2}, 9);
    numbers(&t, (uint32_t[]){4, 3, 1, 0, 0, 0, library, 0, 0}, (int[]){2, 2, 2, 2, 4, 2, 2, 2, 2}, 9);
    pad(&t);
    return t;
}

static void stream(Buffer *out, uint32_t place, uint32_t size, const char *text, size_t width) {
    number(out, place, 4);
    number(out, size, 4);
    grow(out, text, width);
}

static Buffer metadata(const Parts *p, const Buffer *t) {
    static const unsigned char root[32] = "BSJB\1\0\1\0\0\0\0\0\14\0\0\0v4.0.30319\0\0\0\0\5";
    Buffer out = {0};
    uint32_t place = 108;
    grow(&out, root, sizeof root);
    stream(&out, place, t->size, "#~\0", 4);
    stream(&out, place += t->size, p->strings.size, "#Strings\0\0\0", 12);
    stream(&out, place += p->strings.size, 4, "#US", 4);
    stream(&out, place += 4, 16, "#GUID\0\0", 8);
    stream(&out, place += 16, p->blobs.size, "#Blob\0\0", 8);
    grow(&out, t->bytes, t->size);
    grow(&out, p->strings.bytes, p->strings.size);
    grow(&out, "\0\0\0", 4);
    grow(&out, "mfdeploy module1", 16);
    grow(&out, p->blobs.bytes, p->blobs.size);
    return out;
}

static void headers(unsigned char *file, uint32_t size, uint32_t raw) {
    static const unsigned char dos[128] =
        "MZ\x90\0\3\0\0\0\4\0\0\0\xFF\xFF\0\0\xB8\0\0\0\0\0\0\0\x40\0\0\0\0\0\0\0\0\0\0\0\0\0\0\0\0\0\0\0\0\0\0\0\0\0\0\0\0\0"
        "\0\0\0\0\0\0\x80\0\0\0\x0E\x1F\xBA\x0E\0\xB4\x09\xCD\x21\xB8\1\x4C\xCD\x21This program cannot be run in DOS mode."
        "\r\r\n$";
    static const struct { int at; uint32_t n; } fields[] = {
        {132, 0x1014C}, {148, 0x010200E0}, {152, 0x0008010B}, {172, 0x2000}, {180, 0x400000}, {184, 0x2000}, {188, 0x200},
        {192, 4}, {200, 4}, {212, 0x200}, {220, 0x85400003}, {224, 0x100000}, {228, 0x1000}, {232, 0x100000}, {236, 0x1000},
        {244, 16}, {360, 0x2000}, {364, 72}, {388, 0x2000}, {396, 0x200}, {412, 0x60000020}};
    memcpy(file, dos, sizeof dos);
    memcpy(file + 128, "PE\0", 4);
    memcpy(file + 376, ".text\0\0", 8);
    for (size_t k = 0; k < sizeof fields / sizeof fields[0]; k++) put(file + fields[k].at, fields[k].n, 4);
    put(file + 156, raw, 4);
    put(file + 208, 0x2000 + round_up(0x2000, size), 4);
    put(file + 384, size, 4);
    put(file + 392, raw, 4);
}

static Buffer file_of(const Buffer *content, const Buffer *m, uint32_t entry) {
    uint32_t size = 72 + content->size + m->size, raw = round_up(512, size);
    Buffer file = {calloc(512 + raw, 1), 512 + raw, 512 + raw};
    if (!file.bytes) abort();
    headers(file.bytes, size, raw);
    put(file.bytes + 512, 72, 4);
    put(file.bytes + 516, 0x00050002, 4);
    put(file.bytes + 520, 0x2048 + content->size, 4);
    put(file.bytes + 524, m->size, 4);
    put(file.bytes + 528, 1, 4);
    put(file.bytes + 532, entry, 4);
    memcpy(file.bytes + 584, content->bytes, content->size);
    memcpy(file.bytes + 584 + content->size, m->bytes, m->size);
    return file;
}

static Buffer made(uint32_t n) {
    unsigned char body[] = {0x1E, 0x17, 0x28, 0, 0, 0, 0, 0x2A};
    Parts p = {0};
    name(&p.strings, "");
    name(&p.strings, "<Module>");
    uint32_t made = name(&p.strings, "Made"), library = name(&p.strings, "mscorlib");
    uint32_t space = name(&p.strings, "System"), object = name(&p.strings, "Object");
    number(&p.blobs, 0, 1);
    numbers(&p.types, (uint32_t[]){0, 1, 0, 0, 1, 1}, (int[]){4, 2, 2, 2, 2, 2}, 6);
    for (uint32_t k = 0; k < n; k++) numbered(&p, k);
    class(&p, "Program");
    put(body + 3, 0x06000000 + n, 4);
    method(&p, "Main", "\0\0\10", 3, body, sizeof body);
    pad(&p.strings);
    pad(&p.blobs);
    Buffer t = tables(&p, made, library, space, object), m = metadata(&p, &t);
    Buffer file = file_of(&p.content, &m, 0x06000000 + n + 1);
    free(p.strings.bytes), free(p.blobs.bytes), free(p.content.bytes), free(p.types.bytes), free(p.methods.bytes);
    free(t.bytes), free(m.bytes);
    return file;
}

int main(int argc, char **argv) {
    uint32_t n = argc > 1 ? strtoul(argv[1], 0, 10) : 0, rounds = argc > 2 ? strtoul(argv[2], 0, 10) : 0;
    uint64_t bytes = 0;
    Buffer last = {0};
    if (n < 1 || n > 2000 || rounds < 1) return 1;
    for (uint32_t k = 0; k < rounds; k++) {
        free(last.bytes);
        last = made(n);
        bytes += last.size;
    }
    printf("%u rounds, %zu bytes, %llu in all\n", rounds, last.size, (unsigned long long)bytes);
    if (argc > 3) {
        FILE *out = fopen(argv[3], "wb");
        if (!out || fwrite(last.bytes, 1, last.size, out) != last.size || fclose(out)) return 1;
    }
    return 0;
}
