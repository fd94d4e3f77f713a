/* Answers manifests through the C interface: records on standard input, a line for each on standard output.
   A side is base (8 bytes), revision (4), index words (4), length (4), all little-endian, and the manifest's bytes.
   Record 'm' is a side: handover_decode_manifest and handover_units are called on it. Record 'v' is the snapshot's side
   and the target's: handover_compare_manifests is called on them. Record 't' is a side, length (4) and bytes of a tail:
   handover_decode_tail is called on them.
   A line tells what a call left, a tab between two calls: the result and the sixteen words of the answer; for each
   index ` lent` (as it was), ` zeros`, ` starts S1 .. S12` (and then zeros) or ` other`; and then ` guard` where words
   before or behind an index were written, ` bytes` where a manifest was, ` tail` where a tail was. A manifest, and a
   tail, is lent in memory of exactly its length. */
#include <stdio.h>
#include <stdlib.h>
#include <string.h>

#include "handover.h"

#define GUARD 64 /* words before and behind an index */
#define FILL 0xa5c3f00du

struct part {
    size_t n;
    uint8_t *bytes, *kept; /* what is lent, and a copy to compare it with */
};

struct side {
    uint64_t base;
    uint32_t revision;
    size_t words;
    struct part manifest;
    uint32_t *room, *index;
};

static uint64_t number(const unsigned char *bytes, int width) {
    uint64_t n = 0;
    while (width--) n = n << 8 | bytes[width];
    return n;
}

static void *memory(size_t n) {
    void *p = malloc(n ? n : 1);
    if (!p) exit(2);
    return p;
}

static void read_bytes(void *bytes, size_t n) {
    if (fread(bytes, 1, n, stdin) != n) exit(2);
}

static struct part read_part(void) {
    unsigned char head[4];
    struct part p;
    read_bytes(head, sizeof head);
    p.n = number(head, 4);
    p.bytes = memory(p.n);
    p.kept = memory(p.n);
    read_bytes(p.bytes, p.n);
    memcpy(p.kept, p.bytes, p.n);
    return p;
}

static struct side read_side(void) {
    unsigned char head[16];
    struct side s;
    read_bytes(head, sizeof head);
    s.base = number(head, 8);
    s.revision = number(head + 8, 4);
    s.words = number(head + 12, 4);
    s.manifest = read_part();
    s.room = memory((s.words + 2 * GUARD) * sizeof *s.room);
    s.index = s.room + GUARD;
    return s;
}

static void release_part(struct part *p) {
    free(p->bytes);
    free(p->kept);
}

static void release(struct side *s) {
    release_part(&s->manifest);
    free(s->room);
}

static void fill(const struct side *s) {
    for (size_t i = 0; i < s->words + 2 * GUARD; i++) s->room[i] = FILL;
}

static int all(const uint32_t *words, size_t n, uint32_t word) {
    for (size_t i = 0; i < n; i++)
        if (words[i] != word) return 0;
    return 1;
}

static int is_written(const struct part *p) {
    return memcmp(p->bytes, p->kept, p->n) != 0;
}

static void print_answer(uint32_t result, const uint64_t *answer) {
    printf("%u", (unsigned)result);
    for (int i = 0; i < 16; i++) printf(" %llu", (unsigned long long)answer[i]);
}

static void print_side(const struct side *s) {
    if (all(s->index, s->words, FILL)) {
        printf(" lent");
    } else if (all(s->index, s->words, 0)) {
        printf(" zeros");
    } else if (s->words >= 12 && all(s->index + 12, s->words - 12, 0)) {
        printf(" starts");
        for (int i = 0; i < 12; i++) printf(" %u", (unsigned)s->index[i]);
    } else {
        printf(" other");
    }
    if (!all(s->room, GUARD, FILL) || !all(s->index + s->words, GUARD, FILL)) printf(" guard");
    if (is_written(&s->manifest)) printf(" bytes");
}

typedef uint32_t call(const uint8_t *, size_t, uint64_t, uint32_t, uint32_t *, size_t, uint64_t *);

static void ask(call *function, const struct side *s) {
    uint64_t answer[16];
    memset(answer, 0xff, sizeof answer);
    fill(s);
    uint32_t result = function(s->manifest.bytes, s->manifest.n, s->base, s->revision, s->index, s->words, answer);
    print_answer(result, answer);
    print_side(s);
}

static void ask_tail(const struct side *s, const struct part *tail) {
    uint64_t answer[16];
    memset(answer, 0xff, sizeof answer);
    fill(s);
    uint32_t result = handover_decode_tail(s->manifest.bytes, s->manifest.n, tail->bytes, tail->n, s->base, s->revision,
                                           s->index, s->words, answer);
    print_answer(result, answer);
    print_side(s);
    if (is_written(tail)) printf(" tail");
}

static void compare(const struct side *s, const struct side *t) {
    uint64_t answer[16];
    memset(answer, 0xff, sizeof answer);
    fill(s);
    fill(t);
    uint32_t result = handover_compare_manifests(s->manifest.bytes, s->manifest.n, s->base, s->revision, s->index,
                                                 s->words, t->manifest.bytes, t->manifest.n, t->base, t->revision,
                                                 t->index, t->words, answer);
    print_answer(result, answer);
    print_side(s);
    print_side(t);
}

int main(void) {
    int kind;
    while ((kind = getchar()) != EOF) {
        struct side s = read_side();
        if (kind == 'm') {
            ask(handover_decode_manifest, &s);
            putchar('\t');
            ask(handover_units, &s);
        } else if (kind == 't') {
            struct part tail = read_part();
            ask_tail(&s, &tail);
            release_part(&tail);
        } else {
            struct side t = read_side();
            compare(&s, &t);
            release(&t);
        }
        putchar('\n');
        release(&s);
    }
    return 0;
}
