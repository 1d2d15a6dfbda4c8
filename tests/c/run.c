/*
 * Tests gq_run: outputs, lines, too little room, and misuse.
 *
 * Usage: run STORED MERGED   (a stored stream, and the stored merge of it with itself, side by side)
 */
#include "whole.h"

#define ROOM 65536

/* Runs a command, and checks its status, its output and its line. A null `out` means no output. */
static void expect(const char *words, const bytes *streams, size_t count, uint8_t status, const bytes *out, const char *line) {
    outcome made = run_in(words, streams, count, ROOM);
    if (made.status != status || !tells(&made, line)) {
        fprintf(stderr, "%s: status %d, %.*s", words, made.status, (int) made.told, (const char *) made.line);
        exit(1);
    }
    CHECK(out ? same(out, made.out.at, made.out.len) : made.out.len == 0);
    free(made.out.at);
}

/* Merges with enough room, and with each smaller room. */
static void rooms(const bytes *two, const bytes *merged) {
    for (size_t room = 0; room <= merged->len; room++) {
        outcome made = run_in("merge\n0,0=a\n64,0=a", two, 2, room);
        CHECK(made.status == (room < merged->len ? GQ_NO_ROOM : GQ_DONE));
        CHECK(tells(&made, room < merged->len ? "write fault\n" : ""));
        CHECK(made.out.len == room && memcmp(made.out.at, merged->at, room) == 0);
        free(made.out.at);
    }
}

/* With too little room for a line, a prefix of it is written, and the status is the same. */
static void lines(const bytes *two) {
    const char *words = "merge\n0,0=a\n32,0=a", *line = "M3 picture 0 source 1\n";
    bytes all = bytes_of(two[0].at, two[0].len);
    append(&all, two[1].at, two[1].len);
    size_t lengths[2] = {two[0].len, two[1].len};
    for (size_t room = 0; room <= strlen(line); room++) {
        uint8_t out[1], err[64];
        size_t written = 9, told = 9;
        memset(err, 0xa5, sizeof err);
        CHECK(gq_run((const uint8_t *) words, strlen(words), all.at, all.len, lengths, 2, out, 0, &written, err, room, &told) == GQ_REFUSED);
        CHECK(written == 0 && told == room && memcmp(err, line, room) == 0 && err[room] == 0xa5);
    }
    free(all.at);
}

/* Too few or too many streams, lengths that don't add up to the bytes, and arguments that aren't valid UTF-8. */
static void misused(const bytes *one) {
    uint8_t out[256], err[GQ_LINE_ROOM];
    size_t written, told, lengths[3] = {one->len, one->len, 0};
    struct {
        const char *words;
        size_t count, len, first;
    } each[] = {
        {"show\na", 0, 0, one->len},        {"show\na", 2, 2 * one->len, one->len}, {"--version", 1, one->len, one->len},
        {"show\na", 1, one->len + 1, one->len}, {"show\na", 1, one->len - 1, one->len}, {"show\na", 1, one->len, SIZE_MAX},
        {"show\n\xff", 1, one->len, one->len},
    };
    bytes two = bytes_of(one->at, one->len);
    append(&two, one->at, one->len);
    for (size_t k = 0; k < sizeof each / sizeof *each; k++) {
        written = told = 7;
        lengths[0] = each[k].first;
        CHECK(gq_run((const uint8_t *) each[k].words, strlen(each[k].words), two.at, each[k].len, lengths, each[k].count, out, sizeof out,
                     &written, err, sizeof err, &told) == GQ_MISUSED);
        CHECK(written == 0 && told == 0);
    }
    free(two.at);
}

int main(int argc, char **argv) {
    CHECK(argc == 3 && gq_version() == GQ_VERSION);
    bytes one = read_file(argv[1]), merged = read_file(argv[2]), broken = bytes_of(one.at, one.len), version = bytes_of("", 0);
    append(&broken, "\0\0\1\x80\x79", 5);
    bytes two[2] = {one, one}, cut[2] = {one, broken};
    outcome shown = run_in("--version", 0, 0, ROOM);
    append(&version, shown.out.at, shown.out.len);
    CHECK(shown.status == GQ_DONE && version.len > 12 && memcmp(version.at, "goosequince ", 12) == 0);
    expect("merge\n0,0=a\n64,0=a", two, 2, GQ_DONE, &merged, "");
    expect("merge\n0,0=a\n64,0=b", cut, 2, GQ_REFUSED, &merged, "F3 source 1 byte 52\n");
    expect("merge\n0,0=a\n32,0=a", two, 2, GQ_REFUSED, 0, "M3 picture 0 source 1\n");
    expect("merge\n0,0=a", two, 0, GQ_MISUSED, 0, "");
    expect("nothing", 0, 0, GQ_MISUSED, 0, "words not understood\n");
    expect("", 0, 0, GQ_MISUSED, 0, "words not understood\n");
    expect("--version", 0, 0, GQ_DONE, &version, "");
    rooms(two, &merged);
    lines(two);
    misused(&one);
    free(shown.out.at), free(version.at), free(one.at), free(merged.at), free(broken.at);
    return 0;
}
