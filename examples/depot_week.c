/* Runs a trace file on the fresh ledger and prints each verdict in words: depot_week TRACE
 *
 *     tools/archives exports
 *     cc -O2 -Wall -Wextra -Werror -Iinclude examples/depot_week.c -Ltarget/staticlib -lexports -o depot_week
 *     ./depot_week examples/depot_week.trace                 # prints examples/depot_week.out */
#include <inttypes.h>
#include <stdio.h>
#include <stdlib.h>

#include "cuudhaqil.h"

/* The table of refusals, from row 1. */
static const char *const rows[] = {
    "ledger not sound",
    "malformed record",
    "time below the clock",
    "epoch 0 or above the role's epoch",
    "epoch below the role's epoch",
    "slot at most the current number",
    "slot above current plus one",
    "a named object isn't stored",
    "number is stored",
    "number at most the highest collected and not stored",
    "256 objects stored",
    "a live hold has this number",
    "manifest not active",
    "8 live holds",
    "hold not live",
    "no object of that currency in that manifest",
    "no object of that currency in the current manifest",
};

/* How cuudhaqil_run ends. */
static const char *const ends[] = {"whole", "torn", "full"};

/* The bytes of a file, or NULL. There is always room for more, so that an empty file is no null pointer either. */
static uint8_t *read_file(const char *path, size_t *length) {
    FILE *file = fopen(path, "rb");
    if (file == NULL)
        return NULL;
    uint8_t *bytes = NULL;
    size_t room = 0;
    for (*length = 0; *length == room;) {
        room += 65536;
        uint8_t *longer = realloc(bytes, room);
        if (longer == NULL) {
            fclose(file);
            free(bytes);
            return NULL;
        }
        bytes = longer;
        *length += fread(bytes + *length, 1, room - *length, file);
    }
    int failed = ferror(file);
    fclose(file);
    if (failed) {
        free(bytes);
        return NULL;
    }
    return bytes;
}

/* The number of whole records at the front of a trace. */
static size_t count_records(const uint8_t *trace, size_t length) {
    size_t count = 0;
    for (size_t at = 0;; count++) {
        uint64_t next = cuudhaqil_next_record(trace + at, length - at);
        if (next <= 1) /* nothing is left, or a torn record */
            return count;
        at += next;
    }
}

static void print_list(const uint64_t *list, uint64_t length) {
    if (length == 0)
        printf(" nothing");
    for (uint64_t i = 0; i < length; i++)
        printf(" %" PRIu64, list[i]);
}

/* numbers and list are as cuudhaqil_read_verdict gives them. */
static void print_verdict(const uint64_t *numbers, const uint64_t *list) {
    uint64_t value = numbers[1];
    switch (numbers[0]) {
    case 0:
        printf("refused %" PRIu64 ": %s", value, rows[value - 1]);
        break;
    case 1:
        printf("accepted");
        break;
    case 2:
        printf("accepted: epoch %" PRIu64, value);
        break;
    case 3:
        printf("accepted: manifest %" PRIu64 " lists", value);
        print_list(list, numbers[2]);
        break;
    case 4:
        printf("accepted: object %" PRIu64, value);
        break;
    default:
        printf("collected:");
        print_list(list, numbers[2]);
    }
    printf("\n");
}

int main(int argc, char **argv) {
    if (argc != 2) {
        fprintf(stderr, "usage: depot_week TRACE\n");
        return 1;
    }
    size_t length;
    uint8_t *trace = read_file(argv[1], &length);
    if (trace == NULL) {
        fprintf(stderr, "cannot read %s\n", argv[1]);
        return 1;
    }
    size_t room = count_records(trace, length) * CUUDHAQIL_LONGEST_VERDICT;
    uint8_t *out = malloc(room + 1);
    if (out == NULL) {
        fprintf(stderr, "no memory for the verdicts\n");
        return 1;
    }
    uint64_t counts[2];
    uint64_t end = cuudhaqil_run(trace, length, out, room, counts, 2);
    for (uint64_t at = 0; at < counts[1];) {
        uint64_t next = cuudhaqil_next_record(out + at, counts[1] - at);
        uint64_t numbers[3], list[CUUDHAQIL_PLACES];
        cuudhaqil_read_verdict(out + at, next, numbers, 3, list, CUUDHAQIL_PLACES);
        print_verdict(numbers, list);
        at += next;
    }
    printf("%s: %" PRIu64 " bytes read, %" PRIu64 " written\n", ends[end], counts[0], counts[1]);
    free(out);
    free(trace);
    return 0;
}
