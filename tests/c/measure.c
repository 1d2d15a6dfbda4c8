/*
 * Runs merges that scripts/bench-c.sh measures. Not a test, because times depend on the machine.
 *
 * Usage: measure push PIECE X,Y=FILE ..    reads the files, and pushes pieces of PIECE bytes as the merger needs them
 *        measure whole X,Y=FILE ..         reads the files whole, and calls gq_run
 *        measure latency FILE              prints the microseconds from the last byte of a picture to its merge, with 4, 16 and 64
 *                                          sources; FILE has one picture, 64 luma samples wide
 *        measure stack KIB X,Y=FILE ..     as push, on a thread with KIB KiB of stack
 */
#define _POSIX_C_SOURCE 200112L
#include "whole.h"
#include <pthread.h>
#include <time.h>

/* A file that is read in parts and pushed in pieces. */
typedef struct source {
    FILE *file;
    uint8_t part[65536];
    size_t at, len;
} source;

/* The arguments of a merge. */
typedef struct job {
    gq_corner corners[64];
    const char *names[64];
    size_t count, piece;
} job;

/* Returns the corners and files of arguments such as `64,0=NAME`. */
static job job_of(char **words, size_t count, size_t piece) {
    job made;
    CHECK(count && count <= 64);
    made.count = count, made.piece = piece;
    for (size_t k = 0; k < count; k++) {
        char *behind;
        made.corners[k].x = (uint32_t) strtoul(words[k], &behind, 10);
        made.corners[k].y = (uint32_t) strtoul(behind + 1, &behind, 10);
        made.names[k] = behind + 1;
    }
    return made;
}

/* Pushes the next piece of a file, or declares its end. */
static void hand_in(gq_merger *merger, size_t k, source *from, size_t piece) {
    size_t taken;
    if (from->at == from->len) {
        from->at = 0;
        from->len = fread(from->part, 1, sizeof from->part, from->file);
    }
    size_t rest = from->len - from->at;
    if (rest == 0) {
        CHECK(gq_merger_end(merger, k) == GQ_DONE);
        return;
    }
    CHECK(gq_merger_push(merger, k, from->part + from->at, rest < piece ? rest : piece, &taken) == GQ_DONE && taken);
    from->at += taken;
}

/* Takes the picture that is ready, and writes it. */
static void write_picture(gq_merger *merger, const gq_picture *picture) {
    static uint8_t *room;
    static size_t len;
    if (picture->bytes > len) {
        len = picture->bytes;
        CHECK((room = realloc(room, len)) != 0);
    }
    CHECK(gq_merger_take(merger, room, len) == GQ_DONE);
    CHECK(fwrite(room, 1, picture->bytes, stdout) == picture->bytes);
}

static void *push_all(void *of) {
    static source sources[64];
    const job *it = of;
    gq_merger merger = {0};
    gq_picture picture;
    size_t k;
    uint8_t status;
    for (k = 0; k < it->count; k++) CHECK((sources[k].file = fopen(it->names[k], "rb")) != 0);
    CHECK(gq_merger_open(&merger, it->corners, it->count, 0) == GQ_DONE);
    while ((status = gq_merger_next(&merger, &k, &picture)) == GQ_WAITS || status == GQ_DONE) {
        if (status == GQ_WAITS) hand_in(&merger, k, &sources[k], it->piece);
        else write_picture(&merger, &picture);
    }
    CHECK(status == GQ_ENDED);
    gq_merger_close(&merger);
    for (k = 0; k < it->count; k++) fclose(sources[k].file);
    return 0;
}

/* Does the same merge by gq_run. */
static void run_all(const job *it) {
    bytes streams[64];
    char words[8192] = "merge";
    size_t all = 65536;
    for (size_t k = 0; k < it->count; k++) {
        streams[k] = read_file(it->names[k]);
        all += 4 * streams[k].len;
        sprintf(words + strlen(words), "\n%u,%u=a", (unsigned) it->corners[k].x, (unsigned) it->corners[k].y);
    }
    outcome made = run_in(words, streams, it->count, all);
    CHECK(made.status == GQ_DONE && fwrite(made.out.at, 1, made.out.len, stdout) == made.out.len);
}

/* Does the merge of push_all on a thread with `kib` KiB of stack. */
static void push_on_thread(job *it, size_t kib) {
    pthread_attr_t with;
    pthread_t thread;
    CHECK(pthread_attr_init(&with) == 0 && pthread_attr_setstacksize(&with, kib * 1024) == 0);
    CHECK(pthread_create(&thread, &with, push_all, it) == 0 && pthread_join(thread, 0) == 0);
}

/* Returns the microseconds from the call that pushes the last byte until the merged picture is ready, the least of 200 runs. */
static double latency(const bytes *one, size_t count) {
    static gq_corner corners[64];
    double best = 1;
    for (size_t k = 0; k < count; k++) corners[k] = (gq_corner) {(uint32_t) (64 * k), 0};
    for (int turn = 0; turn < 200; turn++) {
        gq_merger merger = {0};
        gq_picture picture;
        size_t k, taken;
        struct timespec begin, end;
        CHECK(gq_merger_open(&merger, corners, count, 0) == GQ_DONE);
        for (k = 0; k < count; k++) {
            CHECK(gq_merger_push(&merger, k, one->at, one->len - (k == count - 1), &taken) == GQ_DONE);
            if (k < count - 1) CHECK(gq_merger_flush(&merger, k) == GQ_DONE);
        }
        clock_gettime(CLOCK_MONOTONIC, &begin);
        CHECK(gq_merger_push(&merger, count - 1, one->at + one->len - 1, 1, &taken) == GQ_DONE && gq_merger_flush(&merger, count - 1) == GQ_DONE);
        CHECK(gq_merger_next(&merger, &k, &picture) == GQ_DONE);
        clock_gettime(CLOCK_MONOTONIC, &end);
        double took = (double) (end.tv_sec - begin.tv_sec) + 1e-9 * (double) (end.tv_nsec - begin.tv_nsec);
        if (took < best) best = took;
        gq_merger_close(&merger);
    }
    return 1e6 * best;
}

int main(int argc, char **argv) {
    CHECK(argc > 2);
    const char *what = argv[1];
    if (!strcmp(what, "latency")) {
        bytes one = read_file(argv[2]);
        printf("%.0f, %.0f and %.0f us\n", latency(&one, 4), latency(&one, 16), latency(&one, 64));
        free(one.at);
        return 0;
    }
    int is_whole = !strcmp(what, "whole");
    size_t number = is_whole ? 0 : strtoul(argv[2], 0, 10);
    job it = job_of(argv + 3 - is_whole, (size_t) (argc - 3 + is_whole), strcmp(what, "push") ? 65536 : number);
    if (is_whole) run_all(&it);
    else if (!strcmp(what, "stack")) push_on_thread(&it, number);
    else push_all(&it);
    return 0;
}
