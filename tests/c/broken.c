/*
 * Tests that merges and extractions of broken streams, pushed in pieces, end as gq_run does on the same bytes.
 *
 * Usage: broken COUNT SEED X,Y=FILE ..
 * Merges these files COUNT times, each time with one to four changes, which are drawn from SEED. If PROGRAM names the built program and
 * FOLDER an empty folder, every fiftieth merge is also compared with the program's. Prints how many merges were refused and how many
 * results differ; the status is 1 if any do.
 */
#define _POSIX_C_SOURCE 200112L
#include "pushed.h"
#include <sys/wait.h>

#define EACH 50

/* More bytes than any merge or extraction of these streams writes. */
#define ROOM (1u << 18)

static uint64_t seed;

/* Returns a random number below `bound`. */
static size_t below(size_t bound) {
    seed = seed * 6364136223846793005u + 1442695040888963407u;
    return bound ? (size_t) ((seed >> 33) % bound) : 0;
}

/* Returns where the start code of unit `n` begins, or the end of the stream if it has fewer units. */
static size_t unit_at(const bytes *stream, size_t n) {
    for (size_t at = 0; at + 3 <= stream->len; at++)
        if (!memcmp(stream->at + at, "\0\0\1", 3) && n-- == 0) return at;
    return stream->len;
}

/* Replaces `len` bytes of a stream by `count` others. */
static void splice(bytes *stream, size_t at, size_t len, const void *from, size_t count) {
    bytes made = bytes_of(stream->at, at);
    append(&made, from, count);
    append(&made, stream->at + at + len, stream->len - at - len);
    free(stream->at);
    *stream = made;
}

/*
 * Changes a stream in one place. It flips a bit, replaces a byte, cuts the stream, drops or inserts bytes, inserts a start code, or drops,
 * doubles or exchanges a unit.
 */
static void break_it(bytes *stream, const bytes *other) {
    size_t at = below(stream->len), len = below(stream->len - at < 9 ? stream->len - at + 1 : 9);
    size_t n = below(12), begin = unit_at(stream, n), end = unit_at(stream, n + 1), there = below(12);
    uint8_t few[8];
    for (size_t k = 0; k < sizeof few; k++) few[k] = (uint8_t) (below(3) ? below(256) : below(4));
    if (stream->len == 0) {
        splice(stream, 0, 0, few, sizeof few);
        return;
    }
    switch (below(9)) {
        case 0: stream->at[at] ^= (uint8_t) (1u << below(8)); break;
        case 1: stream->at[at] = few[0]; break;
        case 2: splice(stream, at, stream->len - at, "", 0); break;
        case 3: splice(stream, at, len, "", 0); break;
        case 4: splice(stream, at, 0, few, 1 + below(8)); break;
        case 5: splice(stream, at, 0, "\0\0\1", 3); break;
        case 6: splice(stream, begin, end - begin, "", 0); break;
        case 7: {
            bytes unit = bytes_of(stream->at + begin, end - begin);
            splice(stream, end, 0, unit.at, unit.len);
            free(unit.at);
            break;
        }
        default: splice(stream, begin, end - begin, other->at + unit_at(other, there), unit_at(other, there + 1) - unit_at(other, there));
    }
}

/* Extracts a subpicture of a stream that is pushed in pieces, to the end. */
static outcome extract_in(const bytes *stream, uint32_t index, uint8_t temporal_id, size_t piece) {
    gq_extractor extractor = {0};
    gq_picture picture;
    outcome made;
    size_t at = 0, taken;
    made.out = bytes_of("", 0);
    CHECK(gq_extractor_open(&extractor, index, temporal_id, 0) == GQ_DONE);
    while ((made.status = gq_extractor_next(&extractor, &picture)) == GQ_WAITS || made.status == GQ_DONE) {
        if (made.status == GQ_DONE) {
            size_t len = made.out.len;
            append(&made.out, stream->at, 0);
            made.out.at = realloc(made.out.at, len + picture.bytes + 1);
            CHECK(made.out.at && gq_extractor_take(&extractor, made.out.at + len, picture.bytes) == GQ_DONE);
            made.out.len = len + picture.bytes;
        } else if (at == stream->len) {
            CHECK(gq_extractor_end(&extractor) == GQ_DONE);
        } else {
            CHECK(gq_extractor_push(&extractor, stream->at + at, stream->len - at < piece ? stream->len - at : piece, &taken) == GQ_DONE);
            CHECK(taken != 0);
            at += taken;
        }
    }
    made.told = gq_extractor_line(&extractor, made.line, sizeof made.line);
    gq_extractor_close(&extractor);
    return made;
}

static void write_file(const char *name, const bytes *all) {
    FILE *file = fopen(name, "wb");
    CHECK(file && fwrite(all->at, 1, all->len, file) == all->len && fclose(file) == 0);
}

/* Merges files with these bytes by the program. `folder` receives the files. */
static outcome by_program(const char *program, const char *folder, const gq_corner *corners, const bytes *streams, size_t count) {
    char command[8192], name[256];
    outcome made;
    sprintf(command, "cd '%s' && '%s' merge", folder, program);
    for (size_t k = 0; k < count; k++) {
        sprintf(name, "%s/%zu", folder, k);
        write_file(name, &streams[k]);
        sprintf(command + strlen(command), " %u,%u=%zu", (unsigned) corners[k].x, (unsigned) corners[k].y, k);
    }
    strcat(command, " > out 2> err");
    int status = system(command);
    CHECK(WIFEXITED(status));
    made.status = (uint8_t) WEXITSTATUS(status);
    sprintf(name, "%s/out", folder);
    made.out = read_file(name);
    sprintf(name, "%s/err", folder);
    bytes err = read_file(name);
    CHECK(err.len <= sizeof made.line);
    memcpy(made.line, err.at, made.told = err.len);
    free(err.at);
    return made;
}

static int differs(const char *what, size_t n, const outcome *pushed, const outcome *whole) {
    if (agrees(pushed, whole)) return 0;
    fprintf(stderr, "%s %zu: pushed %d, %zu bytes, %.*s; whole %d, %zu bytes, %.*s\n", what, n, pushed->status, pushed->out.len,
            (int) pushed->told, (const char *) pushed->line, whole->status, whole->out.len, (int) whole->told, (const char *) whole->line);
    return 1;
}

int main(int argc, char **argv) {
    static const size_t pieces[] = {1, 7, 100, 1500, SIZE_MAX};
    CHECK(argc > 3 && argc - 3 <= 64);
    size_t count = (size_t) argc - 3, all = strtoul(argv[1], 0, 10), refused = 0, unlike = 0, ran_too = 0;
    const char *program = getenv("PROGRAM"), *folder = getenv("FOLDER");
    gq_corner corners[64];
    bytes whole[64], streams[64];
    char merge[8192] = "merge";
    seed = strtoul(argv[2], 0, 10);
    for (size_t k = 0; k < count; k++) {
        char *behind;
        corners[k].x = (uint32_t) strtoul(argv[k + 3], &behind, 10);
        corners[k].y = (uint32_t) strtoul(behind + 1, &behind, 10);
        whole[k] = read_file(behind + 1);
        sprintf(merge + strlen(merge), "\n%u,%u=a", (unsigned) corners[k].x, (unsigned) corners[k].y);
    }
    for (size_t n = 0; n < all; n++) {
        size_t changes = 1 + below(4), piece = pieces[below(5)], index = below(3), temporal_id = below(7);
        char extract[64];
        for (size_t k = 0; k < count; k++) streams[k] = bytes_of(whole[k].at, whole[k].len);
        for (size_t i = 0; i < changes; i++) break_it(&streams[below(count)], &whole[below(count)]);
        outcome ran = run_in(merge, streams, count, ROOM), pushed = merge_in(corners, streams, count, piece, (enum order) below(3));
        unlike += (size_t) differs("merge", n, &pushed, &ran);
        refused += ran.status == GQ_REFUSED;
        free(pushed.out.at);
        if (program && n % EACH == 0) {
            pushed = by_program(program, folder, corners, streams, count);
            unlike += (size_t) differs("merge by the program", n, &pushed, &ran);
            ran_too++;
            free(pushed.out.at);
        }
        free(ran.out.at);
        sprintf(extract, "extract\n--tid\n%zu\n%zu\na", temporal_id, index);
        ran = run_in(extract, streams, 1, ROOM), pushed = extract_in(&streams[0], (uint32_t) index, (uint8_t) temporal_id, piece);
        unlike += (size_t) differs("extract", n, &pushed, &ran);
        free(ran.out.at), free(pushed.out.at);
        for (size_t k = 0; k < count; k++) free(streams[k].at);
    }
    for (size_t k = 0; k < count; k++) free(whole[k].at);
    printf("%zu broken merges, %zu refused, %zu of them also by the program; %zu answers that differ\n", all, refused, ran_too, unlike);
    return unlike != 0;
}
