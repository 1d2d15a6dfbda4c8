/*
 * Merges files, and writes the merged stream to standard output. It pushes pieces of each file as the merger needs them. Its statuses and
 * lines are those of the program goosequince. C99, and C++ too.
 *
 * Usage: merge X,Y=FILE ..
 *
 *     cc -IDIR/include examples/merge.c -LDIR/lib -lgoosequince -o merge && ./merge 0,0=a.266 64,0=a.266 > m.266
 */
#include <goosequince.h>
#include <stdio.h>
#include <stdlib.h>

#define MOST 64

/* The program's status if a file fails. */
#define FAULT 3

/* A file, and the bytes that were read from it: those before `at` have been taken. */
typedef struct source {
    FILE *file;
    size_t at, len;
    uint8_t piece[65536];
} source;

/* Pushes the bytes of a file that aren't taken yet. If there are none, reads the next ones, or declares the end of the file. */
static uint8_t hand_in(gq_merger *merger, size_t k, source *from) {
    size_t taken;
    uint8_t status;
    if (from->at == from->len) {
        from->at = 0;
        from->len = fread(from->piece, 1, sizeof from->piece, from->file);
        if (from->len == 0 && ferror(from->file)) {
            fprintf(stderr, "read fault source %u\n", (unsigned) k);
            return FAULT;
        }
        if (from->len == 0) return gq_merger_end(merger, k);
    }
    status = gq_merger_push(merger, k, from->piece + from->at, from->len - from->at, &taken);
    from->at += taken;
    return status;
}

/* Takes the picture that is ready, and writes it. */
static uint8_t write_picture(gq_merger *merger, const gq_picture *picture) {
    uint8_t *bytes = (uint8_t *) malloc(picture->bytes);
    uint8_t status = GQ_NO_MEMORY;
    if (bytes) status = gq_merger_take(merger, bytes, picture->bytes);
    if (status == GQ_DONE && fwrite(bytes, 1, picture->bytes, stdout) != picture->bytes) status = FAULT;
    free(bytes);
    return status;
}

/* Merges the sources, and returns the program's status. */
static uint8_t merge(const gq_corner *corners, source *sources, size_t count) {
    gq_merger merger = GQ_CLOSED;
    gq_picture picture;
    size_t k;
    uint8_t line[GQ_LINE_ROOM];
    uint8_t status = gq_merger_open(&merger, corners, count, 0);
    while (status == GQ_DONE) {
        status = gq_merger_next(&merger, &k, &picture);
        if (status == GQ_DONE) status = write_picture(&merger, &picture);
        else if (status == GQ_WAITS) status = hand_in(&merger, k, &sources[k]);
    }
    fwrite(line, 1, gq_merger_line(&merger, line, sizeof line), stderr);
    gq_merger_close(&merger);
    if (fflush(stdout) != 0) return FAULT;
    return status == GQ_ENDED ? (uint8_t) GQ_DONE : status;
}

int main(int argc, char **argv) {
    static source sources[MOST];
    gq_corner corners[MOST];
    int k, count = argc - 1;
    if (count < 1 || count > MOST) return GQ_MISUSED;
    for (k = 0; k < count; k++) {
        unsigned x, y;
        int name = 0;
        if (sscanf(argv[k + 1], "%u,%u=%n", &x, &y, &name) != 2 || !name) return GQ_MISUSED;
        corners[k].x = x;
        corners[k].y = y;
        sources[k].file = fopen(argv[k + 1] + name, "rb");
        if (!sources[k].file) {
            perror(argv[k + 1] + name);
            return FAULT;
        }
    }
    return merge(corners, sources, (size_t) count);
}
