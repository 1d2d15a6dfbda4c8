/*
 * Tests that a merge of pushed streams has the bytes, the status and the line of gq_run on the same streams, for several sizes of pieces
 * and three orders of the sources.
 *
 * Usage: merge X,Y=FILE ..
 */
#include "pushed.h"

#define ROOM (1u << 24)

/* Reads the corner of an argument such as `64,0=NAME`, and returns the name of its file. */
static const char *corner_of(const char *word, gq_corner *corner) {
    char *behind;
    corner->x = (uint32_t) strtoul(word, &behind, 10);
    CHECK(*behind == ',');
    corner->y = (uint32_t) strtoul(behind + 1, &behind, 10);
    CHECK(*behind == '=');
    return behind + 1;
}

int main(int argc, char **argv) {
    static const size_t pieces[] = {1, 7, 1500, 65536, SIZE_MAX};
    size_t count = (size_t) argc - 1;
    gq_corner corners[64];
    bytes streams[64];
    char words[8192] = "merge";
    CHECK(argc > 1 && count <= 64);
    for (size_t k = 0; k < count; k++) {
        streams[k] = read_file(corner_of(argv[k + 1], &corners[k]));
        sprintf(words + strlen(words), "\n%u,%u=a", (unsigned) corners[k].x, (unsigned) corners[k].y);
    }
    outcome whole = run_in(words, streams, count, ROOM);
    for (size_t k = 0; k < sizeof pieces / sizeof *pieces; k++)
        for (int order = 0; order < 3; order++) {
            outcome pushed = merge_in(corners, streams, count, pieces[k], order);
            if (!agrees(&pushed, &whole)) {
                fprintf(stderr, "pieces of %zu, order %d: status %d and %zu bytes, not %d and %zu\n", pieces[k], order, pushed.status,
                        pushed.out.len, whole.status, whole.out.len);
                return 1;
            }
            free(pushed.out.at);
        }
    printf("%zu sources, status %d, %zu bytes\n", count, whole.status, whole.out.len);
    free(whole.out.at);
    for (size_t k = 0; k < count; k++) free(streams[k].at);
    return 0;
}
