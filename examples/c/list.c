/*
 * list FILE            what is wrong with the record in FILE: each entry of its list as a number on a line of its own, or the refusal
 * list --answers FILE  the answers of scoping (with an empty seed), closedness, demands and the arithmetic test, and the record's names
 *
 * To build and run it, from the root of the repository:
 *
 *     (cd crates/noravilump && rt lib)
 *     mkdir -p target
 *     gcc -std=c11 -Wall -Wextra -Werror -I include examples/c/list.c crates/noravilump/out/libnoravilump.a -o target/list
 *     target/list FILE
 *
 * An entry is rule * 16777216 + node * 256 + name; include/noravilump.h says what each number means. The record is refused by
 * one line, 'refused NUMBER at byte OFFSET'. The status is 1 where FILE cannot be read or the answer cannot be written, and 0 otherwise, a
 * refusal included.
 */
#include <errno.h>
#include <inttypes.h>
#include <stdbool.h>
#include <stdio.h>
#include <stdlib.h>
#include <string.h>

#include "noravilump.h"

enum { FIRST_LENT = 16, FIRST_READ = 4096, TOO_SHORT = 50 };

struct record {
    uint8_t *bytes;
    size_t len;
};

static void *grown(void *memory, size_t size) {
    void *more = realloc(memory, size);
    if (more == NULL) {
        fprintf(stderr, "list: no memory for %zu bytes\n", size);
        exit(EXIT_FAILURE);
    }
    return more;
}

/* Whether all of the file could be read. */
static bool read_all(FILE *file, struct record *record) {
    size_t room = FIRST_READ;
    record->bytes = grown(NULL, room);
    record->len = 0;
    size_t got;
    while ((got = fread(record->bytes + record->len, 1, room - record->len, file)) > 0) {
        record->len += got;
        if (record->len == room) {
            room *= 2;
            record->bytes = grown(record->bytes, room);
        }
    }
    return !ferror(file);
}

static struct record read_file(const char *path) {
    FILE *file = fopen(path, "rb");
    struct record record;
    if (file == NULL || !read_all(file, &record)) {
        fprintf(stderr, "list: cannot read %s: %s\n", path, strerror(errno));
        exit(EXIT_FAILURE);
    }
    fclose(file);
    return record;
}

static void print_list(struct record record) {
    size_t room = FIRST_LENT;
    uint32_t *entries = grown(NULL, room * sizeof *entries);
    noravilump_answer answer = noravilump_list(record.bytes, record.len, entries, room);
    if (answer.number == TOO_SHORT) {
        room = answer.place;
        entries = grown(entries, room * sizeof *entries);
        answer = noravilump_list(record.bytes, record.len, entries, room);
    }
    if (answer.number != 0) {
        printf("refused %" PRIu32 " at byte %" PRIu32 "\n", answer.number, answer.place);
    } else {
        for (size_t i = 0; i < answer.place; i++) {
            printf("%" PRIu32 "\n", entries[i]);
        }
    }
    free(entries);
}

static void print_answer(const char *question, noravilump_answer answer) {
    printf("%s %" PRIu32 " %" PRIu32 " %" PRIu32 "\n", question, answer.number, answer.place, answer.name);
}

static void print_names(struct record record) {
    for (unsigned number = 0; number <= UINT8_MAX; number++) {
        noravilump_stretch name = noravilump_name(record.bytes, record.len, (uint8_t)number);
        if (name.len == 0) {
            return;
        }
        printf("name %u %.*s\n", number, (int)name.len, (const char *)record.bytes + name.at);
    }
}

static void print_answers(struct record record) {
    print_answer("scoping", noravilump_scoping(record.bytes, record.len, 0, 0));
    print_answer("closedness", noravilump_closedness(record.bytes, record.len));
    print_answer("demands", noravilump_demands(record.bytes, record.len));
    print_answer("arithmetic", noravilump_arithmetic(record.bytes, record.len));
    print_names(record);
}

int main(int argc, char **argv) {
    bool answers = argc == 3 && strcmp(argv[1], "--answers") == 0;
    if (argc != 2 && !answers) {
        fprintf(stderr, "usage: list [--answers] FILE\n");
        return EXIT_FAILURE;
    }
    struct record record = read_file(argv[argc - 1]);
    if (answers) {
        print_answers(record);
    } else {
        print_list(record);
    }
    free(record.bytes);
    if (fflush(stdout) != 0) {
        fprintf(stderr, "list: cannot write: %s\n", strerror(errno));
        return EXIT_FAILURE;
    }
    return EXIT_SUCCESS;
}
