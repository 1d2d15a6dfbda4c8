/*
 * goosequince.h: merges and extracts VVC streams (H.266) in a process of your own. C99 and C++, on machines whose size_t has 64 bits.
 * Link with -lgoosequince.
 *
 * The output is, byte for byte, what the program goosequince writes for the same streams. What the program refuses, the library refuses
 * by the same rule and with the same line (docs/REFUSALS.md). It opens no files, starts no threads, has no global state, and calls only
 * malloc, realloc and free. Every call returns, whatever bytes the streams have. No call keeps a pointer to your memory after it returns.
 *
 * There are two forms:
 *
 *   whole    gq_run runs one of the program's commands on streams in memory. One call, no handle.
 *   push     gq_merger_.. and gq_extractor_.. work on a handle. You push the bytes of each source as they arrive, in pieces of any size,
 *            and take each picture as soon as it is complete.
 *
 * Open a handle before its other calls, and close it after them. In between, these calls may come in any order and any number of times.
 *
 * docs/LIBRARY.md describes flow control, segments, threads, memory and stack.
 *
 * WHAT YOU MUST ENSURE. Nothing checks these conditions:
 *
 *   - Pointers aren't null and are aligned for their types, even if the length is 0. A length is the number of elements that its pointer
 *     points to. No block of memory is larger than PTRDIFF_MAX bytes.
 *   - Memory that a call writes overlaps nothing else that the call is given. It needn't be initialized, unless it is a handle.
 *   - A handle is all zeros, or only the library has written it. It is closed before its memory is freed. It may be moved; of two copies
 *     at most one is used.
 *   - A handle takes one call at a time. It may go from one thread to another if you order the calls: by a lock, a thread's start or
 *     join, or a sequentially consistent atomic. Calls on different handles may run at the same time.
 *   - No call is made from a signal handler, or in the forked child of a process with threads.
 *   - The stack has 256 KiB to spare.
 *   - malloc, realloc and free belong to one allocator. It aligns each block to the powers of two up to 16 that divide the block's size.
 *
 * All else is checked: a closed handle, a handle of the other kind, a source that doesn't exist, too little room. Such a call returns
 * GQ_MISUSED or GQ_NO_ROOM, and changes only what its comment says.
 */
#ifndef GOOSEQUINCE_H
#define GOOSEQUINCE_H

#include <stdbool.h>
#include <stddef.h>
#include <stdint.h>

#if SIZE_MAX != UINT64_MAX
#error "goosequince.h: the library is for machines whose size_t has 64 bits"
#endif

#ifdef __cplusplus
extern "C" {
#endif

/* The version of this interface. It rises with each change that a caller can see. */
#define GQ_VERSION 1u

/* Returns the version of the interface that the library has. If it isn't GQ_VERSION, header and library don't belong together. */
uint32_t gq_version(void);

/* What a call returns, as a uint8_t. 0 to 4 are the program's statuses. The numbers don't change. */
enum gq_status {
    GQ_DONE = 0,      /* the call is done */
    GQ_REFUSED = 1,   /* a rule is broken; the line names it and its place */
    GQ_MISUSED = 2,   /* arguments that aren't understood or are out of range, or a call that the handle can't do */
    GQ_NO_ROOM = 3,   /* too little room */
    GQ_NO_MEMORY = 4, /* out of memory */
    GQ_WAITS = 5,     /* a source needs bytes */
    GQ_ENDED = 6      /* there are no more pictures */
};

/* Bytes that are enough for each line. (Not proved: by its texts and the ranges of its numbers, the longest line has 83 bytes.) */
#define GQ_LINE_ROOM 128u

/* A closed handle: `gq_merger merger = GQ_CLOSED;`. Memory of zeros, as calloc returns it, is a closed handle too. */
#define GQ_CLOSED {0, false}

/* ---- whole ------------------------------------------------------------------------------------------------------------------- */

/*
 * Runs one of the program's commands on streams in memory.
 *
 *   words, words_len         The program's arguments, without its name, separated by line feeds: "merge\n0,0=a\n64,0=b". Names of files
 *                            stand for the streams, in order. They may be any names, and two may be the same.
 *   bytes, bytes_len         The bytes of all streams, one stream after another.
 *   lengths, count           `lengths[k]` is the number of bytes of stream k, which may be 0. `count` is the number of files that `words`
 *                            names; it is 0 if `words` isn't understood.
 *   out, out_room, written   `out` receives what the program would write to standard output: `*written` bytes, at most `out_room`.
 *   err, err_room, told      `err` receives what the program would write to standard error, with its line feed: `*told` bytes, at most
 *                            `err_room`. GQ_LINE_ROOM bytes are enough; with fewer, it receives a prefix of the line, and the status is
 *                            the same.
 *
 * The rest of `out` and `err` isn't written.
 *
 * Returns one of the program's statuses:
 *
 *   GQ_DONE       The command is done.
 *   GQ_REFUSED    A rule is broken: `out` has the output before it, `err` the line. (For `verify`: a difference was found.)
 *   GQ_MISUSED    The arguments aren't understood, and `err` has the line. Or they aren't valid UTF-8, `count` isn't the number of files
 *                 that they name, or the lengths don't add up to `bytes_len`: then `*written` and `*told` are 0.
 *   GQ_NO_ROOM    `out` is full: it has a prefix of the output, and `err` the line "write fault".
 *   GQ_NO_MEMORY  Out of memory. `err` has the line "no memory", or nothing if memory ran out before the command started.
 *
 * During the call it holds a copy of `bytes`, `out_room` and `err_room` bytes (it touches only those that are written), and what the
 * program holds. It frees all of this before it returns.
 */
uint8_t gq_run(const uint8_t *words, size_t words_len, const uint8_t *bytes, size_t bytes_len, const size_t *lengths, size_t count,
               uint8_t *out, size_t out_room, size_t *written, uint8_t *err, size_t err_room, size_t *told);

/* ---- push -------------------------------------------------------------------------------------------------------------------- */

/* The upper left corner of a source's region in the merged frame, in luma samples. */
typedef struct gq_corner {
    uint32_t x, y;
} gq_corner;

/* Describes a picture that is ready to be taken. */
typedef struct gq_picture {
    uint64_t number;      /* the number of pictures before it: merged ones, or those of an extractor's source, kept or not */
    size_t bytes;         /* its size in bytes, with its parameter sets and the end of sequence before it */
    int32_t order;        /* PicOrderCntVal: its place in output order within its coded layer video sequence */
    uint8_t type;         /* nal_unit_type of its slices: 7 to 9 are IRAP pictures, 10 is a GDR picture */
    uint8_t temporal_id;  /* TemporalId */
    bool starts_sequence; /* it starts a coded layer video sequence */
} gq_picture;

/* A merger. All zeros is a closed one. Only the library uses its fields. */
typedef struct gq_merger {
    void *at;
    bool live;
} gq_merger;

/*
 * Opens a merger.
 *
 *   corners, count   The upper left corner of each source's region, in order of the sources. There are 1 to 64, and x and y are below
 *                    16,384. They are copied.
 *   level            The general_level_idc of the merged stream, written as it is; 0 means the highest of the sources'.
 *
 * Returns:
 *
 *   GQ_DONE       The merger is open. Each source waits for bytes.
 *   GQ_MISUSED    The merger was open already, and stays as it is. Or `count` or a corner is out of its range: the merger stays closed.
 *   GQ_NO_MEMORY  Out of memory. The merger stays closed.
 *
 * Whether the regions make a frame depends on the first pictures: gq_merger_next checks it. The merger holds memory until
 * gq_merger_close.
 */
uint8_t gq_merger_open(gq_merger *merger, const gq_corner *corners, size_t count, uint8_t level);

/*
 * Pushes the next bytes of a source.
 *
 *   source       The source's number, from 0, in order of the corners.
 *   bytes, len   The source's next bytes.
 *   taken        `*taken` receives how many of them were taken, from the beginning. Keep the rest, and push it later.
 *
 * A call takes at most 65,536 bytes. If the source waits for bytes, `len` isn't 0 and there is memory, it takes at least one. It takes
 * none in the following cases:
 *
 *   - The source holds a complete picture that isn't merged yet.
 *   - The source has ended, has broken a rule, or found no memory for its bytes.
 *
 * Returns:
 *
 *   GQ_DONE       `*taken` says what was taken. If the bytes break a rule, or there is no memory for them, gq_merger_next reports it in
 *                 its turn; from then on this source takes none.
 *   GQ_MISUSED    The merger is closed, or there is no such source. `*taken` is 0.
 *
 * Bytes that are taken are copied. At most 2^25 + 2^23 + 65,538 bytes of each source are held, beside its parameter sets and messages
 * (docs/LIBRARY.md).
 */
uint8_t gq_merger_push(gq_merger *merger, size_t source, const uint8_t *bytes, size_t len, size_t *taken);

/*
 * Declares that the last unit pushed to a source is complete, although no start code follows yet. Call it at the end of a segment, or
 * after each picture of a live stream.
 *
 * It acts as three zero bytes, which Annex B allows there, and places in lines count them. In the middle of a unit it ends the unit
 * there, and in most cases a rule then refuses the stream.
 *
 *   GQ_DONE       The call is done. If the source waits for bytes, each call adds three zeros. If it holds a picture, the zeros are added
 *                 once that picture is merged, and only once, however often you call this before. If it has ended, has broken a rule or
 *                 found no memory, nothing changes. A rule that is broken, or lack of memory, is reported as for gq_merger_push.
 *   GQ_MISUSED    The merger is closed, or there is no such source.
 */
uint8_t gq_merger_flush(gq_merger *merger, size_t source);

/*
 * Declares that a source has no more bytes. Bytes that weren't taken before aren't part of the stream. A second call changes nothing.
 *
 *   GQ_DONE       The call is done. If the source has broken a rule, nothing changes.
 *   GQ_MISUSED    The merger is closed, or there is no such source.
 */
uint8_t gq_merger_end(gq_merger *merger, size_t source);

/*
 * Advances as far as the bytes allow.
 *
 *   GQ_DONE       A picture is ready to be taken, and `*picture` describes it. It is the same picture until you take it.
 *   GQ_WAITS      `*source` is the first source, in order, that needs more bytes or gq_merger_end.
 *   GQ_ENDED      All sources have ended, and every picture was taken. Later calls return the same.
 *   GQ_REFUSED    A rule is broken, and gq_merger_line has its line. Later calls return the same. A rule that a later source breaks is
 *                 reported only when no earlier source waits, so that the line is the one that the program prints.
 *   GQ_NO_MEMORY  There is no memory for bytes that were pushed, or for the merged picture. Later calls return the same.
 *   GQ_MISUSED    The merger is closed.
 *
 * Only GQ_WAITS writes `*source`, and only GQ_DONE writes `*picture`.
 */
uint8_t gq_merger_next(gq_merger *merger, size_t *source, gq_picture *picture);

/*
 * Copies the picture that is ready to the beginning of `into`, and gives it up, so that gq_merger_next can go on to the next one. All
 * pictures, one after another, are the merged stream.
 *
 *   GQ_DONE       The picture was written: as many bytes as gq_merger_next reported in `picture->bytes`, which is never 0.
 *   GQ_NO_ROOM    `room` is less than that. Nothing is written, and the picture stays.
 *   GQ_MISUSED    The merger is closed, or no picture is ready. Nothing is written.
 */
uint8_t gq_merger_take(gq_merger *merger, uint8_t *into, size_t room);

/*
 * Copies the line that says why the merger stopped to `into`, and returns the line's length in bytes. It is the line of the broken rule,
 * as the program prints it, or "no memory", with its line feed.
 *
 * If `room` is less than that length, `into` receives a prefix of the line. No zero is written after it. GQ_LINE_ROOM bytes are enough.
 *
 * Returns 0 and writes nothing in three cases: gq_merger_next has returned neither GQ_REFUSED nor GQ_NO_MEMORY; there is no memory for
 * the line; the merger is closed.
 */
size_t gq_merger_line(gq_merger *merger, uint8_t *into, size_t room);

/*
 * Frees all memory that the merger holds, and drops a picture that wasn't taken. The merger is then closed, all zeros, and may be opened
 * again. On a closed merger the call does nothing.
 */
void gq_merger_close(gq_merger *merger);

/* An extractor. All zeros is a closed one. */
typedef struct gq_extractor {
    void *at;
    bool live;
} gq_extractor;

/*
 * Opens an extractor.
 *
 *   index         The index of the subpicture to extract, 0 to 999.
 *   temporal_id   The highest TemporalId to keep, 0 to 6. Pictures with a higher one are left out.
 *   level         The general_level_idc of the extracted stream, written as it is; 0 keeps the source's.
 *
 * Returns:
 *
 *   GQ_DONE       The extractor is open, and waits for bytes.
 *   GQ_MISUSED    The extractor was open already, and stays as it is. Or a number is out of its range: the extractor stays closed.
 *   GQ_NO_MEMORY  Out of memory. The extractor stays closed.
 *
 * The other calls do what those of a merger with one source do; read "extracted" for "merged".
 */
uint8_t gq_extractor_open(gq_extractor *extractor, uint32_t index, uint8_t temporal_id, uint8_t level);
uint8_t gq_extractor_push(gq_extractor *extractor, const uint8_t *bytes, size_t len, size_t *taken);
uint8_t gq_extractor_flush(gq_extractor *extractor);
uint8_t gq_extractor_end(gq_extractor *extractor);
uint8_t gq_extractor_next(gq_extractor *extractor, gq_picture *picture);
uint8_t gq_extractor_take(gq_extractor *extractor, uint8_t *into, size_t room);
size_t gq_extractor_line(gq_extractor *extractor, uint8_t *into, size_t room);
void gq_extractor_close(gq_extractor *extractor);

#ifdef __cplusplus
}
#endif

#endif
