/*
 * Makes each allocation of the library fail in turn. A merge, an extraction and gq_run have to return GQ_NO_MEMORY after a prefix of their
 * output, or to end as without a failure. Nothing may stay allocated.
 *
 * Usage: memory STORED MERGED   (a stored stream, and the stored merge of it with itself, side by side)
 *
 * Link with --wrap=malloc, --wrap=realloc and --wrap=free. Only allocations of the library are counted and fail, because `failing` is 0
 * while this program allocates.
 */
#include "pushed.h"

void *__real_malloc(size_t size);
void *__real_realloc(void *at, size_t size);
void __real_free(void *at);

/* Which allocation fails, 0 for none; how many were made since `failing` was set; and how many blocks are allocated. */
static size_t failing, made;
static long held;

static int fails(void) { return failing && ++made == failing; }

void *__wrap_malloc(size_t size) {
    void *at = fails() ? 0 : __real_malloc(size);
    held += at != 0;
    return at;
}

void *__wrap_realloc(void *at, size_t size) {
    void *moved = fails() ? 0 : __real_realloc(at, size);
    held += at == 0 && moved != 0;
    return moved;
}

void __wrap_free(void *at) {
    held -= at != 0;
    __real_free(at);
}

/* Ends the program unless the output is whole, or a prefix of it came before GQ_NO_MEMORY. */
static void judge(const char *what, size_t n, uint8_t status, const uint8_t *out, size_t len, const bytes *whole) {
    int front = len <= whole->len && memcmp(out, whole->at, len) == 0;
    if (!front || !(status == GQ_NO_MEMORY || ((status == GQ_DONE || status == GQ_ENDED) && len == whole->len))) {
        fprintf(stderr, "%s, allocation %zu: status %d, %zu bytes\n", what, n, status, len);
        exit(1);
    }
}

/* Merges, with allocation n failing. Returns whether there were n allocations. */
static int merge_with(size_t n, const bytes *one, const bytes *whole) {
    static const gq_corner corners[2] = {{0, 0}, {64, 0}};
    static uint8_t out[65536];
    gq_merger merger = {0};
    gq_picture picture;
    size_t len = 0, at[2] = {0, 0}, k, taken;
    long before = held;
    failing = n, made = 0;
    uint8_t status = gq_merger_open(&merger, corners, 2, 0);
    while (status == GQ_DONE || status == GQ_WAITS) {
        status = gq_merger_next(&merger, &k, &picture);
        if (status == GQ_DONE) {
            CHECK(gq_merger_take(&merger, out + len, sizeof out - len) == GQ_DONE);
            len += picture.bytes;
        } else if (status == GQ_WAITS && at[k] == one->len) {
            CHECK(gq_merger_end(&merger, k) == GQ_DONE);
        } else if (status == GQ_WAITS) {
            CHECK(gq_merger_push(&merger, k, one->at + at[k], one->len - at[k], &taken) == GQ_DONE);
            at[k] += taken;
        }
    }
    if (merger.live) CHECK(gq_merger_next(&merger, &k, &picture) == status);
    gq_merger_close(&merger);
    failing = 0;
    CHECK(held == before);
    judge("merge", n, status, out, len, whole);
    return made >= n;
}

/* Extracts, with allocation n failing. Returns whether there were n allocations. */
static int extract_with(size_t n, const bytes *from, const bytes *whole) {
    static uint8_t out[65536];
    gq_extractor extractor = {0};
    gq_picture picture;
    size_t len = 0, at = 0, taken;
    long before = held;
    failing = n, made = 0;
    uint8_t status = gq_extractor_open(&extractor, 0, 6, 0);
    while (status == GQ_DONE || status == GQ_WAITS) {
        status = gq_extractor_next(&extractor, &picture);
        if (status == GQ_DONE) {
            CHECK(gq_extractor_take(&extractor, out + len, sizeof out - len) == GQ_DONE);
            len += picture.bytes;
        } else if (status == GQ_WAITS && at == from->len) {
            CHECK(gq_extractor_end(&extractor) == GQ_DONE);
        } else if (status == GQ_WAITS) {
            CHECK(gq_extractor_push(&extractor, from->at + at, from->len - at, &taken) == GQ_DONE);
            at += taken;
        }
    }
    gq_extractor_close(&extractor);
    failing = 0;
    CHECK(held == before);
    judge("extract", n, status, out, len, whole);
    return made >= n;
}

/* Calls gq_run, with allocation n failing. Returns whether there were n allocations. */
static int run_with(size_t n, const bytes *two, const bytes *whole) {
    static const char *words = "merge\n0,0=a\n64,0=a";
    static uint8_t out[4096], err[GQ_LINE_ROOM];
    size_t lengths[2] = {two->len / 2, two->len / 2}, written, told;
    long before = held;
    failing = n, made = 0;
    uint8_t status = gq_run((const uint8_t *) words, strlen(words), two->at, two->len, lengths, 2, out, sizeof out, &written, err, sizeof err, &told);
    failing = 0;
    CHECK(held == before);
    CHECK(told == 0 || (told == 10 && memcmp(err, "no memory\n", 10) == 0));
    judge("run", n, status, out, written, whole);
    return made >= n;
}

int main(int argc, char **argv) {
    CHECK(argc == 3);
    bytes one = read_file(argv[1]), merged = read_file(argv[2]), two = bytes_of(one.at, one.len);
    append(&two, one.at, one.len);
    outcome cut = run_in("extract\n0\na", &merged, 1, 65536);
    size_t merges = 1, extractions = 1, runs = 1;
    CHECK(cut.status == GQ_DONE);
    while (merge_with(merges, &one, &merged)) merges++;
    while (extract_with(extractions, &merged, &cut.out)) extractions++;
    while (run_with(runs, &two, &merged)) runs++;
    printf("allocations that failed: %zu of a merge, %zu of an extraction, %zu of a run\n", merges - 1, extractions - 1, runs - 1);
    free(one.at), free(merged.at), free(two.at), free(cut.out.at);
    return 0;
}
