/* What the tests of the library share: bytes of files, and a check that ends the program if it fails. */
#ifndef STREAMS_H
#define STREAMS_H

#include <stdint.h>
#include <stdio.h>
#include <stdlib.h>
#include <string.h>

#define CHECK(is) \
    do { \
        if (!(is)) { \
            fprintf(stderr, "%s:%d: %s\n", __FILE__, __LINE__, #is); \
            exit(1); \
        } \
    } while (0)

/* Bytes that a test owns. One more is allocated, so that `at` isn't null if `len` is 0. */
typedef struct bytes {
    uint8_t *at;
    size_t len;
} bytes;

static bytes bytes_of(const void *from, size_t len) {
    bytes made = {malloc(len + 1), len};
    CHECK(made.at);
    if (len) memcpy(made.at, from, len);
    return made;
}

static void append(bytes *to, const void *from, size_t len) {
    to->at = realloc(to->at, to->len + len + 1);
    CHECK(to->at);
    if (len) memcpy(to->at + to->len, from, len);
    to->len += len;
}

static bytes read_file(const char *name) {
    bytes made = bytes_of("", 0);
    uint8_t part[65536];
    FILE *file = fopen(name, "rb");
    if (!file) {
        perror(name);
        exit(1);
    }
    for (size_t got; (got = fread(part, 1, sizeof part, file)) != 0;) append(&made, part, got);
    fclose(file);
    return made;
}

static int same(const bytes *a, const void *at, size_t len) {
    return a->len == len && (len == 0 || memcmp(a->at, at, len) == 0);
}

#endif
