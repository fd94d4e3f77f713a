/* Judges a manifest and counts its units, or compares a snapshot's manifest with the target's:

   judge MANIFEST
   judge SNAPSHOT TARGET

   Build it in the root of the repository:

   tools/staticlib handover_c
   cc -O2 -Wall -Wextra -pedantic -std=c11 -Iinclude -o target/judge examples/c/judge.c target/staticlib/libhandover_c.a

   Exit status: 0 accepted or compatible, 1 refused or differs, 2 bad usage, an unreadable file, too little memory. */
#include <inttypes.h>
#include <stdio.h>
#include <stdlib.h>

#include "handover.h"

#define BASE 0
#define REVISION 2

/* A manifest, and the index that is lent with it; the index serves any number of calls. */
struct manifest {
    uint8_t *bytes;
    uint32_t *index;
    size_t n, words;
};

/* Reads a file; one byte more than a manifest may have is enough of it, for question 1 to refuse it. */
static int read_file(struct manifest *m, const char *name) {
    FILE *file = fopen(name, "rb");
    m->bytes = file ? malloc(HANDOVER_MOST_BYTES + 1) : NULL;
    if (m->bytes) m->n = fread(m->bytes, 1, HANDOVER_MOST_BYTES + 1, file);
    int good = m->bytes && !ferror(file);
    if (!good) perror(name);
    if (file) fclose(file);
    return good;
}

/* Question 1 is asked before the index is looked at, so that a manifest that is too long needs no long one. */
static int read_manifest(struct manifest *m, const char *name) {
    if (!read_file(m, name)) return 0;
    m->words = HANDOVER_INDEX_WORDS(m->n > HANDOVER_MOST_BYTES ? 0 : m->n);
    m->index = malloc(m->words * sizeof *m->index);
    if (!m->index) perror(name);
    return m->index != NULL;
}

static void release(struct manifest *m) {
    free(m->bytes);
    free(m->index);
}

static int count(const struct manifest *m) {
    uint64_t answer[16];
    uint32_t question = handover_units(m->bytes, m->n, BASE, REVISION, m->index, m->words, answer);
    if (question) {
        printf("refused by question %" PRIu32 " at byte %" PRIu64 "\n", question, answer[0]);
        return 1;
    }
    printf("%" PRIu64 " state words, %" PRIu64 " units\n", answer[0], answer[1]);
    return 0;
}

static int compare(const struct manifest *s, const struct manifest *t) {
    uint64_t answer[16];
    uint32_t question = handover_compare_manifests(s->bytes, s->n, BASE, REVISION, s->index, s->words, t->bytes, t->n,
                                                   BASE, REVISION, t->index, t->words, answer);
    if (question) {
        printf("the %s's manifest is refused by question %" PRIu32 " at byte %" PRIu64 "\n",
               answer[1] ? "target" : "snapshot", question, answer[0]);
        return 1;
    }
    if (answer[0]) {
        printf("differs in section %" PRIu64 ", part %" PRIu64 ", entry %" PRIu64 ", inner place %" PRIu64 "\n",
               answer[0], answer[1], answer[2], answer[3]);
        return 1;
    }
    puts("compatible");
    return 0;
}

int main(int argc, char **argv) {
    struct manifest first = {0}, second = {0};
    int status = 2;
    if (argc == 2) {
        if (read_manifest(&first, argv[1])) status = count(&first);
    } else if (argc == 3) {
        if (read_manifest(&first, argv[1]) && read_manifest(&second, argv[2])) status = compare(&first, &second);
    } else {
        fputs("usage: judge MANIFEST | judge SNAPSHOT TARGET\n", stderr);
    }
    if (fflush(stdout)) {
        perror("standard output");
        status = 2;
    }
    release(&first);
    release(&second);
    return status;
}
