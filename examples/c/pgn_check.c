/*
 * pgn_check FILE: checks a PGN file and prints how many games and plies it has, or its first fault.
 * pgn_check --export FILE: writes the file in export format.
 *
 * The status is 0, 1 for a fault, or 2 if the file cannot be read, the output cannot be written, or
 * there is no memory.
 */
#include <stdio.h>
#include <stdlib.h>
#include <string.h>

#include "pgn.h"

/* Reads a whole file, with at least one byte allocated; NULL where that fails. */
static uint8_t *read_file(const char *name, size_t *length) {
    FILE *file = fopen(name, "rb");
    size_t capacity = 1 << 16;
    uint8_t *bytes = file ? malloc(capacity) : NULL;

    *length = 0;
    while (bytes) {
        size_t count = fread(bytes + *length, 1, capacity - *length, file);
        uint8_t *larger;

        *length += count;
        if (count == 0)
            break;
        if (*length < capacity)
            continue;
        capacity *= 2;
        larger = realloc(bytes, capacity);
        if (!larger)
            free(bytes);
        bytes = larger;
    }
    if (bytes && ferror(file)) {
        free(bytes);
        bytes = NULL;
    }
    if (file)
        fclose(file);
    return bytes;
}

/* Writes the text in export format, and returns the last result. The buffer grows until it fits. */
static pgn_result export_text(const uint8_t *text, size_t length) {
    size_t capacity = 2 * length + 4096;
    pgn_result result = {0};

    for (;; capacity *= 2) {
        uint8_t *buffer = malloc(capacity);

        if (!buffer) {
            fputs("out of memory\n", stderr);
            exit(2);
        }
        result = pgn_convert(text, length, buffer, capacity, PGN_FULL_FORMAT);
        if (result.status != PGN_FULL)
            fwrite(buffer, 1, result.written, stdout);
        free(buffer);
        if (result.status != PGN_FULL)
            return result;
    }
}

int main(int count, char **words) {
    int is_export = count == 3 && strcmp(words[1], "--export") == 0;
    uint8_t *text;
    size_t length;
    pgn_result result;

    if (count != 2 && !is_export) {
        fputs("usage: pgn_check [--export] FILE\n", stderr);
        return 2;
    }
    text = read_file(words[count - 1], &length);
    if (!text) {
        fprintf(stderr, "%s cannot be read\n", words[count - 1]);
        return 2;
    }
    result = is_export ? export_text(text, length) : pgn_check(text, length);
    free(text);
    if (result.status != PGN_OK) {
        fprintf(is_export ? stderr : stdout, "fault %u at byte %llu: %s\n", (unsigned)result.fault,
                (unsigned long long)result.place, (char *)result.message + result.reason_at);
        return 1;
    }
    if (!is_export)
        printf("games: %llu, plies: %llu\n", (unsigned long long)result.games,
               (unsigned long long)result.plies);
    if (fflush(stdout) != 0 || ferror(stdout)) {
        fputs("output cannot be written\n", stderr);
        return 2;
    }
    return 0;
}
