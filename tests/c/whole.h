/* Runs gq_run on streams in memory. */
#ifndef WHOLE_H
#define WHOLE_H

#include "goosequince.h"
#include "streams.h"

/* What a run returned and wrote. */
typedef struct outcome {
    uint8_t status;
    bytes out;
    uint8_t line[GQ_LINE_ROOM];
    size_t told;
} outcome;

/* The most streams of a run. */
#define MOST_STREAMS 256

/* Runs a command on streams, with `room` bytes for the output. Checks that the eight bytes after these stay as they are. */
static outcome run_in(const char *words, const bytes *streams, size_t count, size_t room) {
    outcome made;
    bytes all = bytes_of("", 0);
    size_t lengths[MOST_STREAMS + 1];
    CHECK(count <= MOST_STREAMS);
    for (size_t k = 0; k < count; k++) {
        append(&all, streams[k].at, streams[k].len);
        lengths[k] = streams[k].len;
    }
    made.out.at = malloc(room + 8);
    CHECK(made.out.at);
    memset(made.out.at + room, 0xa5, 8);
    made.status = gq_run((const uint8_t *) words, strlen(words), all.at, all.len, lengths, count, made.out.at, room,
                         &made.out.len, made.line, sizeof made.line, &made.told);
    CHECK(made.out.len <= room);
    CHECK(made.told <= sizeof made.line);
    for (size_t k = 0; k < 8; k++) CHECK(made.out.at[room + k] == 0xa5);
    free(all.at);
    return made;
}

static int tells(const outcome *made, const char *line) {
    return made->told == strlen(line) && memcmp(made->line, line, made->told) == 0;
}

#endif
