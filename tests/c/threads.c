/*
 * Tests handles on threads: several merges at once, and a merge whose every step runs on a new thread, give what gq_run gives.
 *
 * Usage: threads X,Y=FILE ..
 */
#define _POSIX_C_SOURCE 200112L
#include "pushed.h"
#include <pthread.h>

#define ROOM (1u << 20)
#define THREADS 4

static gq_corner corners[64];
static bytes streams[64];
static size_t count;

/* A merge that goes from thread to thread, and its outcome so far. */
typedef struct step {
    gq_merger merger;
    source from[64];
    bytes out;
    uint8_t status;
} step;

static void *merge_all(void *to) {
    *(outcome *) to = merge_in(corners, streams, count, 7, IN_TURN);
    return 0;
}

/* Advances by one step: pushes a piece, or takes a picture. */
static void *go_on(void *of) {
    step *it = of;
    gq_picture picture;
    size_t k = 0;
    it->status = gq_merger_next(&it->merger, &k, &picture);
    if (it->status == GQ_WAITS) CHECK(hand_in(&it->merger, &it->from[k], k, 100));
    if (it->status == GQ_DONE) take_picture(&it->merger, &picture, &it->out);
    return 0;
}

static void on_a_thread(void *(*what)(void *), void *of) {
    pthread_t thread;
    CHECK(pthread_create(&thread, 0, what, of) == 0 && pthread_join(thread, 0) == 0);
}

int main(int argc, char **argv) {
    char words[8192] = "merge";
    pthread_t threads[THREADS];
    outcome made[THREADS];
    count = (size_t) argc - 1;
    CHECK(argc > 1 && count <= 64);
    for (size_t k = 0; k < count; k++) {
        char *behind;
        corners[k].x = (uint32_t) strtoul(argv[k + 1], &behind, 10);
        corners[k].y = (uint32_t) strtoul(behind + 1, &behind, 10);
        streams[k] = read_file(behind + 1);
        sprintf(words + strlen(words), "\n%u,%u=a", (unsigned) corners[k].x, (unsigned) corners[k].y);
    }
    outcome whole = run_in(words, streams, count, ROOM);
    for (size_t n = 0; n < THREADS; n++) CHECK(pthread_create(&threads[n], 0, merge_all, &made[n]) == 0);
    for (size_t n = 0; n < THREADS; n++) {
        CHECK(pthread_join(threads[n], 0) == 0 && agrees(&made[n], &whole));
        free(made[n].out.at);
    }
    static step moving;
    moving.out = bytes_of("", 0);
    for (size_t k = 0; k < count; k++) moving.from[k] = (source) {&streams[k], 0, 0};
    CHECK(gq_merger_open(&moving.merger, corners, count, 0) == GQ_DONE);
    do on_a_thread(go_on, &moving);
    while (moving.status == GQ_WAITS || moving.status == GQ_DONE);
    gq_merger_close(&moving.merger);
    CHECK(moving.status == (whole.status == GQ_DONE ? GQ_ENDED : whole.status) && same(&whole.out, moving.out.at, moving.out.len));
    printf("%d merges at once, and one from thread to thread: status %d, %zu bytes\n", THREADS, whole.status, whole.out.len);
    free(whole.out.at), free(moving.out.at);
    for (size_t k = 0; k < count; k++) free(streams[k].at);
    return 0;
}
