/* Runs a merge to its end, over streams that are pushed in pieces. */
#ifndef PUSHED_H
#define PUSHED_H

#include "whole.h"

/* Which source is pushed next: the one that the merger needs, or all that take bytes, from the first or from the last. */
enum order { AS_WANTED, IN_TURN, FROM_THE_LAST };

/* A source, and how many of its bytes were taken. */
typedef struct source {
    const bytes *all;
    size_t at;
    int ended;
} source;

/* Pushes the next piece of a source, or declares its end. Returns whether anything was taken. */
static int hand_in(gq_merger *merger, source *from, size_t k, size_t piece) {
    size_t rest = from->all->len - from->at, len = rest < piece ? rest : piece, taken = 9;
    if (from->ended) return 0;
    if (rest == 0) {
        from->ended = 1;
        CHECK(gq_merger_end(merger, k) == GQ_DONE);
        return 1;
    }
    CHECK(gq_merger_push(merger, k, from->all->at + from->at, len, &taken) == GQ_DONE);
    CHECK(taken <= len && taken <= 65536);
    from->at += taken;
    return taken != 0;
}

/* Pushes to all sources as much as they take. */
static void hand_in_all(gq_merger *merger, source *from, size_t count, size_t piece, enum order order) {
    for (size_t i = 0; i < count; i++) {
        size_t k = order == FROM_THE_LAST ? count - 1 - i : i;
        while (hand_in(merger, &from[k], k, piece)) {}
    }
}

/* Takes the picture that is ready, and first checks that with too little room nothing is written and the picture stays. */
static void take_picture(gq_merger *merger, const gq_picture *picture, bytes *to) {
    uint8_t *room = malloc(picture->bytes + 1);
    CHECK(room);
    room[0] = 0xa5;
    CHECK(picture->bytes != 0);
    CHECK(gq_merger_take(merger, room, picture->bytes - 1) == GQ_NO_ROOM && room[0] == 0xa5);
    CHECK(gq_merger_take(merger, room, picture->bytes) == GQ_DONE);
    CHECK(gq_merger_take(merger, room, picture->bytes) == GQ_MISUSED);
    append(to, room, picture->bytes);
    free(room);
}

/* Merges streams that are pushed in pieces, to the end. */
static outcome merge_in(const gq_corner *corners, const bytes *streams, size_t count, size_t piece, enum order order) {
    gq_merger merger = {0};
    gq_picture picture;
    source from[64];
    outcome made;
    uint64_t number = 0;
    made.out = bytes_of("", 0);
    made.told = 0;
    for (size_t k = 0; k < count; k++) from[k] = (source) {&streams[k], 0, 0};
    CHECK(gq_merger_open(&merger, corners, count, 0) == GQ_DONE);
    for (;;) {
        size_t k = count;
        if (order != AS_WANTED) hand_in_all(&merger, from, count, piece, order);
        made.status = gq_merger_next(&merger, &k, &picture);
        if (made.status == GQ_WAITS) {
            CHECK(k < count);
            CHECK(hand_in(&merger, &from[k], k, piece));
        } else if (made.status == GQ_DONE) {
            CHECK(picture.number == number++);
            take_picture(&merger, &picture, &made.out);
        } else {
            break;
        }
    }
    made.told = gq_merger_line(&merger, made.line, sizeof made.line);
    CHECK(gq_merger_next(&merger, &from[0].at, &picture) == made.status);
    gq_merger_close(&merger);
    CHECK(merger.at == 0 && !merger.live);
    return made;
}

/* Returns whether a pushed merge ended as a run of gq_run did. If memory ran out, there may be none for the line. */
static int agrees(const outcome *pushed, const outcome *whole) {
    uint8_t status = pushed->status == GQ_ENDED ? GQ_DONE : pushed->status;
    return status == whole->status && same(&whole->out, pushed->out.at, pushed->out.len)
        && (status == GQ_NO_MEMORY || (pushed->told == whole->told && memcmp(pushed->line, whole->line, whole->told) == 0));
}

#endif
