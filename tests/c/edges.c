/*
 * Tests misuse and limits: closed handles, handles of the other kind, numbers out of range, too little room, bytes after an end. The
 * compiler checks the sizes, offsets and numbers that callers in other languages rely on.
 *
 * Usage: edges STORED MERGED   (a stored stream, and the stored merge of it with itself, side by side)
 */
#include "pushed.h"

static const gq_corner corners[65] = {{0, 0}, {64, 0}};

#define IS(what, is) typedef char what[(is) ? 1 : -1]

IS(version, GQ_VERSION == 1);
IS(statuses, GQ_DONE == 0 && GQ_REFUSED == 1 && GQ_MISUSED == 2 && GQ_NO_ROOM == 3 && GQ_NO_MEMORY == 4 && GQ_WAITS == 5 && GQ_ENDED == 6);
IS(corner, sizeof(gq_corner) == 8 && offsetof(gq_corner, x) == 0 && offsetof(gq_corner, y) == 4);
IS(merger_handle, sizeof(gq_merger) == 16 && offsetof(gq_merger, at) == 0 && offsetof(gq_merger, live) == 8);
IS(extractor_handle, sizeof(gq_extractor) == 16 && offsetof(gq_extractor, at) == 0 && offsetof(gq_extractor, live) == 8);
IS(picture, sizeof(gq_picture) == 24 && offsetof(gq_picture, number) == 0 && offsetof(gq_picture, bytes) == 8 && offsetof(gq_picture, order) == 16);
IS(picture_end, offsetof(gq_picture, type) == 20 && offsetof(gq_picture, temporal_id) == 21 && offsetof(gq_picture, starts_sequence) == 22);

static int is_closed(const gq_merger *merger) { return merger->at == 0 && !merger->live; }

/* Every call on a closed handle returns GQ_MISUSED, and writes only `taken`. */
static void closed(void) {
    gq_merger merger = GQ_CLOSED;
    gq_extractor extractor = GQ_CLOSED;
    gq_picture picture = {9, 9, 9, 9, 9, true};
    size_t source = 9, taken = 9;
    uint8_t room[1] = {0xa5};
    CHECK(gq_merger_push(&merger, 0, room, 1, &taken) == GQ_MISUSED && taken == 0);
    CHECK(gq_merger_flush(&merger, 0) == GQ_MISUSED && gq_merger_end(&merger, 0) == GQ_MISUSED);
    CHECK(gq_merger_next(&merger, &source, &picture) == GQ_MISUSED && source == 9 && picture.number == 9);
    CHECK(gq_merger_take(&merger, room, 1) == GQ_MISUSED && room[0] == 0xa5);
    CHECK(gq_merger_line(&merger, room, 1) == 0 && room[0] == 0xa5);
    gq_merger_close(&merger);
    CHECK(is_closed(&merger));
    taken = 9;
    CHECK(gq_extractor_push(&extractor, room, 1, &taken) == GQ_MISUSED && taken == 0);
    CHECK(gq_extractor_flush(&extractor) == GQ_MISUSED && gq_extractor_end(&extractor) == GQ_MISUSED);
    CHECK(gq_extractor_next(&extractor, &picture) == GQ_MISUSED && picture.number == 9);
    CHECK(gq_extractor_take(&extractor, room, 1) == GQ_MISUSED && gq_extractor_line(&extractor, room, 1) == 0);
    gq_extractor_close(&extractor);
    CHECK(extractor.at == 0 && !extractor.live);
}

/* A handle of the other kind is treated like a closed one, and doesn't change. */
static void of_the_other(const bytes *one) {
    gq_merger merger = GQ_CLOSED;
    gq_extractor extractor = GQ_CLOSED;
    gq_merger *as_merger = (gq_merger *) (void *) &extractor;
    gq_extractor *as_extractor = (gq_extractor *) (void *) &merger;
    gq_picture picture = {9, 9, 9, 9, 9, true};
    size_t source = 9, taken = 9;
    uint8_t room[1] = {0xa5};
    CHECK(gq_merger_open(&merger, corners, 1, 0) == GQ_DONE && gq_extractor_open(&extractor, 0, 6, 0) == GQ_DONE);
    CHECK(gq_merger_open(as_merger, corners, 1, 0) == GQ_MISUSED && gq_extractor_open(as_extractor, 0, 6, 0) == GQ_MISUSED);
    CHECK(gq_merger_push(as_merger, 0, one->at, one->len, &taken) == GQ_MISUSED && taken == 0);
    CHECK(gq_merger_flush(as_merger, 0) == GQ_MISUSED && gq_merger_end(as_merger, 0) == GQ_MISUSED);
    CHECK(gq_merger_next(as_merger, &source, &picture) == GQ_MISUSED && source == 9 && picture.number == 9);
    CHECK(gq_merger_take(as_merger, room, 1) == GQ_MISUSED && gq_merger_line(as_merger, room, 1) == 0 && room[0] == 0xa5);
    taken = 9;
    CHECK(gq_extractor_push(as_extractor, one->at, one->len, &taken) == GQ_MISUSED && taken == 0);
    CHECK(gq_extractor_flush(as_extractor) == GQ_MISUSED && gq_extractor_end(as_extractor) == GQ_MISUSED);
    CHECK(gq_extractor_next(as_extractor, &picture) == GQ_MISUSED && picture.number == 9);
    CHECK(gq_extractor_take(as_extractor, room, 1) == GQ_MISUSED && gq_extractor_line(as_extractor, room, 1) == 0 && room[0] == 0xa5);
    CHECK(gq_merger_next(&merger, &source, &picture) == GQ_WAITS && source == 0 && gq_extractor_next(&extractor, &picture) == GQ_WAITS);
    gq_merger_close(&merger);
    gq_extractor_close(&extractor);
}

/* Corners and numbers out of range leave a handle closed; an open handle stays as it is. */
static void opened(void) {
    gq_merger merger = {0};
    gq_extractor extractor = {0};
    gq_corner far[2] = {{0, 0}, {16384, 0}}, low[1] = {{0, 16384}}, last[1] = {{16383, 16383}};
    void *at;
    CHECK(gq_merger_open(&merger, corners, 0, 0) == GQ_MISUSED && is_closed(&merger));
    CHECK(gq_merger_open(&merger, corners, 65, 0) == GQ_MISUSED && is_closed(&merger));
    CHECK(gq_merger_open(&merger, far, 2, 0) == GQ_MISUSED && gq_merger_open(&merger, low, 1, 0) == GQ_MISUSED && is_closed(&merger));
    CHECK(gq_merger_open(&merger, last, 1, 255) == GQ_DONE && merger.at != 0 && merger.live);
    at = merger.at;
    CHECK(gq_merger_open(&merger, corners, 1, 0) == GQ_MISUSED && merger.at == at && merger.live);
    gq_merger_close(&merger);
    gq_merger_close(&merger);
    CHECK(gq_merger_open(&merger, corners, 64, 0) == GQ_DONE);
    gq_merger_close(&merger);
    CHECK(is_closed(&merger));
    CHECK(gq_extractor_open(&extractor, 1000, 6, 0) == GQ_MISUSED && gq_extractor_open(&extractor, 0, 7, 0) == GQ_MISUSED && !extractor.live);
    CHECK(gq_extractor_open(&extractor, 999, 0, 255) == GQ_DONE && gq_extractor_open(&extractor, 0, 0, 0) == GQ_MISUSED && extractor.live);
    gq_extractor_close(&extractor);
}

/* Sources that don't exist, pushes of no bytes, and bytes after a picture and after the end. */
static void sources(const bytes *one) {
    gq_merger merger = {0};
    gq_picture picture;
    size_t source = 9, taken = 9;
    CHECK(gq_merger_open(&merger, corners, 2, 0) == GQ_DONE);
    CHECK(gq_merger_push(&merger, 2, one->at, one->len, &taken) == GQ_MISUSED && taken == 0);
    CHECK(gq_merger_flush(&merger, 2) == GQ_MISUSED && gq_merger_end(&merger, SIZE_MAX) == GQ_MISUSED);
    CHECK(gq_merger_push(&merger, 0, one->at, 0, &taken) == GQ_DONE && taken == 0);
    CHECK(gq_merger_next(&merger, &source, &picture) == GQ_WAITS && source == 0);
    CHECK(gq_merger_push(&merger, 0, one->at, one->len, &taken) == GQ_DONE && taken == one->len);
    CHECK(gq_merger_next(&merger, &source, &picture) == GQ_WAITS && source == 0);
    CHECK(gq_merger_flush(&merger, 0) == GQ_DONE && gq_merger_next(&merger, &source, &picture) == GQ_WAITS && source == 1);
    CHECK(gq_merger_push(&merger, 0, one->at, one->len, &taken) == GQ_DONE && taken == 0);
    CHECK(gq_merger_line(&merger, (uint8_t *) &taken, sizeof taken) == 0);
    CHECK(gq_merger_end(&merger, 1) == GQ_DONE && gq_merger_end(&merger, 1) == GQ_DONE);
    CHECK(gq_merger_push(&merger, 1, one->at, one->len, &taken) == GQ_DONE && taken == 0);
    CHECK(gq_merger_flush(&merger, 1) == GQ_DONE);
    CHECK(gq_merger_next(&merger, &source, &picture) == GQ_REFUSED && gq_merger_next(&merger, &source, &picture) == GQ_REFUSED);
    gq_merger_close(&merger);
}

/* If the end is declared while a picture is held, no bytes are taken after it either, and it stays the end. */
static void ends(const bytes *one) {
    gq_extractor extractor = GQ_CLOSED;
    gq_picture picture;
    size_t taken;
    uint8_t room[256];
    CHECK(gq_extractor_open(&extractor, 0, 6, 0) == GQ_DONE);
    CHECK(gq_extractor_push(&extractor, one->at, one->len, &taken) == GQ_DONE && taken == one->len && gq_extractor_flush(&extractor) == GQ_DONE);
    CHECK(gq_extractor_end(&extractor) == GQ_DONE);
    CHECK(gq_extractor_push(&extractor, one->at, one->len, &taken) == GQ_DONE && taken == 0);
    CHECK(gq_extractor_next(&extractor, &picture) == GQ_DONE && picture.number == 0 && picture.bytes <= sizeof room);
    CHECK(gq_extractor_push(&extractor, one->at, one->len, &taken) == GQ_DONE && taken == 0);
    CHECK(gq_extractor_take(&extractor, room, sizeof room) == GQ_DONE && gq_extractor_next(&extractor, &picture) == GQ_ENDED);
    CHECK(gq_extractor_push(&extractor, one->at, one->len, &taken) == GQ_DONE && taken == 0);
    CHECK(gq_extractor_next(&extractor, &picture) == GQ_ENDED && gq_extractor_line(&extractor, room, sizeof room) == 0);
    gq_extractor_close(&extractor);
}

/* gq_merger_next describes the same picture until it is taken, and taking it needs enough room. */
static void pictures(const bytes *one, const bytes *merged) {
    gq_merger merger = {0};
    gq_picture picture = {0}, again = {0};
    size_t source, taken;
    uint8_t room[256];
    CHECK(merged->len < sizeof room);
    CHECK(gq_merger_open(&merger, corners, 2, 0) == GQ_DONE);
    for (size_t k = 0; k < 2; k++) CHECK(gq_merger_push(&merger, k, one->at, one->len, &taken) == GQ_DONE && gq_merger_flush(&merger, k) == GQ_DONE);
    CHECK(gq_merger_take(&merger, room, sizeof room) == GQ_MISUSED);
    CHECK(gq_merger_next(&merger, &source, &picture) == GQ_DONE && gq_merger_next(&merger, &source, &again) == GQ_DONE);
    CHECK(gq_merger_take(&merger, room, 0) == GQ_NO_ROOM);
    CHECK(picture.number == 0 && picture.bytes == merged->len && picture.order == 0 && picture.type == 8 && picture.temporal_id == 0 && picture.starts_sequence);
    CHECK(again.number == 0 && again.bytes == picture.bytes);
    CHECK(gq_merger_take(&merger, room, picture.bytes - 1) == GQ_NO_ROOM && gq_merger_take(&merger, room, picture.bytes) == GQ_DONE);
    CHECK(same(merged, room, picture.bytes));
    CHECK(gq_merger_end(&merger, 0) == GQ_DONE && gq_merger_end(&merger, 1) == GQ_DONE);
    CHECK(gq_merger_next(&merger, &source, &picture) == GQ_ENDED && gq_merger_next(&merger, &source, &picture) == GQ_ENDED);
    gq_merger_close(&merger);
}

/* A line is cut to the room that there is. */
static void lines(const bytes *one) {
    static const char *line = "M3 picture 0 source 1\n";
    gq_corner beside[2] = {{0, 0}, {32, 0}};
    gq_merger merger = {0};
    gq_picture picture;
    size_t source, taken;
    CHECK(gq_merger_open(&merger, beside, 2, 0) == GQ_DONE);
    for (size_t k = 0; k < 2; k++) CHECK(gq_merger_push(&merger, k, one->at, one->len, &taken) == GQ_DONE && gq_merger_end(&merger, k) == GQ_DONE);
    CHECK(gq_merger_next(&merger, &source, &picture) == GQ_REFUSED);
    for (size_t room = 0; room <= GQ_LINE_ROOM; room++) {
        uint8_t told[GQ_LINE_ROOM + 1];
        size_t len = strlen(line);
        memset(told, 0xa5, sizeof told);
        CHECK(gq_merger_line(&merger, told, room) == len);
        CHECK(memcmp(told, line, room < len ? room : len) == 0 && told[room < len ? room : len] == 0xa5);
    }
    gq_merger_close(&merger);
}

int main(int argc, char **argv) {
    CHECK(argc == 3);
    bytes one = read_file(argv[1]), merged = read_file(argv[2]);
    closed();
    of_the_other(&one);
    opened();
    sources(&one);
    ends(&merged);
    pictures(&one, &merged);
    lines(&one);
    free(one.at), free(merged.at);
    return 0;
}
