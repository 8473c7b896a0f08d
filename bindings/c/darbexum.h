/* darbexum.h - receives and mixes AES67 and SMPTE ST 2110-30 audio: the proved engine of Darbexum, for C.
 *
 * An engine takes the datagrams of up to 16 streams, each sent on up to four paths (SMPTE ST 2022-7). It merges the
 * copies, aligns the streams by their media times, mixes them, and returns the datagrams of one output. It has no
 * thread, no socket and no clock: the caller passes datagrams and clock readings in, and sends what comes out.
 *
 *     darbexum engine = DARBEXUM_EMPTY;
 *     uint8_t text[256], out[DARBEXUM_MAX_OCTETS];
 *     if (darbexum_open(&engine, config, config_len, text, sizeof text))
 *         return fail((const char *)text);
 *     ptrdiff_t n;
 *     for (;;) {
 *         int64_t now = clock_reading();                             // in sampling instants
 *         while ((n = darbexum_turn(&engine, now, out, sizeof out)) > 0)
 *             send_datagram(out, (size_t)n);
 *         darbexum_arrive(&engine, stream, path, octets, len);       // each datagram that came in
 *     }
 *     darbexum_close(&engine);
 *     while ((n = darbexum_drain(&engine, out, sizeof out)) > 0)
 *         send_datagram(out, (size_t)n);
 *     darbexum_free(&engine);
 *
 * Order of calls. `darbexum_open`; then `darbexum_turn` at each clock reading, again with the same reading until it
 * returns 0, and `darbexum_arrive` for each datagram. A datagram is judged at the last reading before it, so the reading
 * comes first: otherwise a first packet would have the time of the opening. Between a turn that returned a datagram and
 * the 0, no datagram is taken (DARBEXUM_UNFINISHED). At the end `darbexum_close`, `darbexum_drain` until it returns 0,
 * and `darbexum_free`. Calls in another order return a code, and are never undefined.
 *
 * Units. Times and clock readings are in sampling instants of 48 kHz, from 0 to 2^60, on the clock of the
 * configuration's `open_at`. Lengths and sizes are in octets; the length of gains or of samples is their number.
 * Streams, paths and channels are counted from 0.
 *
 * Codes. A call that returns a negative code has changed nothing: neither the engine nor what a pointer points to, but
 * for the text of `darbexum_open`. If several codes apply, the call returns the first of those that it lists.
 *
 * What the caller owes. No call can test these:
 *   - A handle begins as DARBEXUM_EMPTY, or zeroed. Only these calls write to it. After `darbexum_open` it is neither
 *     copied and used twice nor lost before `darbexum_free`.
 *   - One call at a time is made for a handle. Calls may come from any thread, one after the other: order them by a
 *     lock, or by the start or join of a thread. Different handles are independent.
 *   - No pointer is NULL, also if its length is 0. What one pointer points to does not overlap what another pointer of
 *     the same call points to. A length is that of the memory, and below 2^63.
 *   - A struct's `size` is at most the size of its memory. Set it to `sizeof` of the struct.
 *   - malloc, realloc and free belong together, and align to 16 octets. No call is made in a signal handler, or in a
 *     forked child of a process with threads.
 *
 * No call blocks, writes to a file, sets errno, or keeps a pointer that it was given. `darbexum_open` allocates all that
 * an engine ever needs; no later call allocates. docs/CLAIMS.md of the repository says what is proved. */
#ifndef DARBEXUM_H
#define DARBEXUM_H

#include <stddef.h>
#include <stdint.h>

#ifdef __cplusplus
extern "C" {
#endif

/* The version of this header: an octet each for the three numbers. */
#define DARBEXUM_VERSION 0x000300

/* The greatest number of octets of an output's datagram. */
#define DARBEXUM_MAX_OCTETS 1452

/* An engine, or none if the pointer is NULL. */
typedef struct darbexum {
    void *engine;
} darbexum;
#define DARBEXUM_EMPTY { 0 }

/* Codes of failed calls. */
enum darbexum_code {
    DARBEXUM_NO_ENGINE = -1,  /* the handle has no engine */
    DARBEXUM_UNFINISHED = -2, /* the last turn has not returned 0 yet */
    DARBEXUM_NO_STREAM = -3,  /* there is no such stream */
    DARBEXUM_NO_PATH = -4,    /* the stream lacks the path */
    DARBEXUM_FULL = -5,       /* the engine has taken 2^62 events */
    DARBEXUM_WENT_BACK = -6,  /* the clock reading is before the last one, or before the opening */
    DARBEXUM_TOO_FAR = -7,    /* the clock reading is past 2^60 */
    DARBEXUM_CLOSED = -8,     /* the clock reading comes after the close */
    DARBEXUM_SHORT_ROOM = -9, /* the room is too short, or `size` is less than this version's struct has */
    DARBEXUM_NO_TOML = -10,   /* the configuration is not TOML in UTF-8, or has more than 1,048,576 octets */
    DARBEXUM_NO_STUDIO = -11, /* the configuration has a fault; the text says where */
    DARBEXUM_NO_MEMORY = -12, /* an allocation failed */
    DARBEXUM_NONE = -13,      /* there is none */
    DARBEXUM_BAD_SHAPE = -14, /* the gains are not one for each output channel and each input channel */
    DARBEXUM_BAD_GAIN = -15,  /* a gain is below -1,048,576 or above 1,048,576 */
    DARBEXUM_BAD_TIME = -16,  /* the time is before the next block, or past 2^60 */
    DARBEXUM_TOO_MANY = -17   /* 64 changes before the time are still to come */
};

/* What became of a datagram: what `darbexum_arrive` returns. docs/RECEPTION.md has the rules. */
enum darbexum_outcome {
    DARBEXUM_AFTER_CLOSE = 0,   /* it came after the close; not counted */
    DARBEXUM_COUNTERS_FULL = 1, /* 2^62 arrivals were counted; not counted */
    DARBEXUM_WRONG_SOURCE = 2,  /* another synchronization source */
    DARBEXUM_OFF_GRID = 3,      /* its timestamp is not in step with its sequence number */
    DARBEXUM_LATE = 4,          /* it came after its deadline */
    DARBEXUM_AHEAD = 5,         /* it is too early for the reorder window */
    DARBEXUM_TAKEN = 6,         /* the first copy of its number */
    DARBEXUM_DOUBLE = 7,        /* a duplicate with the same payload */
    DARBEXUM_UNLIKE = 8,        /* a duplicate with another payload */
    DARBEXUM_RESTARTED = 9,     /* it opens a new epoch of its source, and is taken */
    DARBEXUM_BAD = 10,          /* no RTP packet (RFC 3550, 5.1) */
    DARBEXUM_WRONG_TYPE = 11,   /* another payload type */
    DARBEXUM_WRONG_LENGTH = 12  /* another payload length */
};

/* The clock of a stream. */
enum darbexum_clock {
    DARBEXUM_MEDIA = 0,   /* the media clock, from RTP timestamps (AES67) */
    DARBEXUM_ARRIVAL = 1, /* the receiver's clock at the first packet of an epoch */
    DARBEXUM_FOLLOW = 2   /* the same, and an epoch also opens for a sender that is astray */
};

/* Structs. The caller sets `size` to `sizeof` of the struct; a later version may append fields, and a library that is
 * older than the program leaves those as they were. */

/* The counts of a stream's merge. arrived = taken + double_ + unlike + off_grid + late + ahead + wrong_source. */
typedef struct darbexum_counts_t {
    size_t size;
    uint64_t arrived;
    uint64_t taken;
    uint64_t taken_by[4]; /* the packets taken, by the path that brought them */
    uint64_t double_;
    uint64_t unlike;
    uint64_t off_grid;
    uint64_t late;
    uint64_t ahead;
    uint64_t wrong_source;
    uint64_t got;  /* slots with a payload */
    uint64_t lost; /* slots without one */
    uint64_t restarts;
} darbexum_counts_t;

/* The counts of a path's datagrams. offered = sent + bad + wrong_type + wrong_length + full. */
typedef struct darbexum_path_counts_t {
    size_t size;
    uint64_t offered;
    uint64_t sent; /* packets of the stream */
    uint64_t bad;
    uint64_t wrong_type;
    uint64_t wrong_length;
    uint64_t full; /* always 0: an engine has no ring that may be full */
} darbexum_path_counts_t;

/* What is fixed of the output. */
typedef struct darbexum_output_t {
    size_t size;
    int64_t start;          /* the media time of the first packet */
    uint32_t sample_octets; /* 2 (L16) or 3 (L24) */
    uint32_t channels;
    uint32_t frames; /* sampling instants per packet */
    uint32_t payload_type;
    uint32_t ssrc;
    uint32_t datagram_octets;
} darbexum_output_t;

/* What is fixed of a stream. */
typedef struct darbexum_stream_t {
    size_t size;
    uint32_t sample_octets; /* 2 (L16) or 3 (L24) */
    uint32_t channels;
    uint32_t frames; /* sampling instants per packet */
    uint32_t payload_type;
    uint32_t paths;   /* 1 to 4 */
    uint32_t latency; /* the time from a packet's media time to its deadline */
    uint32_t window;  /* the number of packets that may be held */
    uint32_t clock;   /* an enum darbexum_clock */
} darbexum_stream_t;

/* Makes the engine of a configuration (TOML, docs/CONFIGURATION.md), and frees one that the handle had. After a code the
 * handle keeps what it had. `text` is given the text of the fault, or an empty text, cut so that a 0 fits behind it.
 * Returns 0, NO_TOML, NO_STUDIO or NO_MEMORY. */
int32_t darbexum_open(darbexum *handle, const uint8_t *config, size_t config_len, uint8_t *text, size_t text_len);

/* Frees the engine, if there is one. The handle is empty then, and may be opened again. */
void darbexum_free(darbexum *handle);

/* Takes a datagram that came in for a stream on a path. Returns an enum darbexum_outcome, or NO_ENGINE, NO_PATH (for a
 * path from 4 on), UNFINISHED, NO_STREAM, NO_PATH or FULL. */
int32_t darbexum_arrive(darbexum *handle, size_t stream, uint8_t path, const uint8_t *octets, size_t len);

/* Moves all streams on to a clock reading, and writes the next datagram to the front of `out`. Returns its length, or 0
 * once all streams have reached the reading and no datagram is ready: call it with the same reading until then. `out`
 * needs room for `datagram_octets` of darbexum_output_t; DARBEXUM_MAX_OCTETS is always enough.
 * Returns NO_ENGINE, SHORT_ROOM, WENT_BACK, TOO_FAR or CLOSED if it fails. */
ptrdiff_t darbexum_turn(darbexum *handle, int64_t now, uint8_t *out, size_t len);

/* Closes all streams: no later packet and no later clock reading is taken. A second close changes nothing.
 * Returns 0, NO_ENGINE or UNFINISHED. */
int32_t darbexum_close(darbexum *handle);

/* Writes the next datagram that is left after a close to the front of `out`. Returns its length, or 0 if none is left
 * or the engine is not closed; NO_ENGINE or SHORT_ROOM if it fails. */
ptrdiff_t darbexum_drain(darbexum *handle, uint8_t *out, size_t len);

/* Writes the clock reading before which no datagram comes if nothing arrives: how long a caller may wait. Returns 0,
 * NO_ENGINE, or NONE: while a turn is unfinished, after a close, and if no reading up to 2^60 gives a datagram. */
int32_t darbexum_next_deadline(darbexum *handle, int64_t *reading);

/* Writes the last clock reading that was taken, or the opening time. Returns 0 or NO_ENGINE. */
int32_t darbexum_time(darbexum *handle, int64_t *time);

/* Changes the gains from the media time `at` on, in sampling instants. The change replaces all changes that were planned
 * from that time on. Gains are in units of 1/65,536 (65,536 is a gain of 1), row by row: a row for each output channel,
 * with a gain in it for each channel of each stream. No datagram that was returned changes, and nothing is allocated. May be called at any time, between two datagrams of a turn too. Returns 0, NO_ENGINE, or the first of
 * BAD_SHAPE, BAD_GAIN, BAD_TIME and TOO_MANY. */
int32_t darbexum_change_gains(darbexum *handle, int64_t at, const int32_t *gains, size_t len);

/* Writes the media time at which the next block begins: the first time whose gains can still change. Pass it to
 * `darbexum_change_gains` for a change that is heard as soon as can be. Returns 0 or NO_ENGINE. */
int32_t darbexum_next_block_start(darbexum *handle, int64_t *start);

/* Returns 1 if the engine was closed and all datagrams were returned: the counts are complete then. Returns 0 if not,
 * or NO_ENGINE. */
int32_t darbexum_settled(darbexum *handle);

/* Returns the number of streams, or 0 if the handle has no engine. */
size_t darbexum_streams(darbexum *handle);

/* Write what is fixed of the output and of a stream, and the counts of a stream and of a path. `handle` is not const,
 * but nothing is changed. Return 0, NO_ENGINE, SHORT_ROOM, NO_STREAM or NO_PATH. */
int32_t darbexum_output(darbexum *handle, darbexum_output_t *output);
int32_t darbexum_stream(darbexum *handle, size_t stream, darbexum_stream_t *out);
int32_t darbexum_counts(darbexum *handle, size_t stream, darbexum_counts_t *counts);
int32_t darbexum_path_counts(darbexum *handle, size_t stream, uint8_t path, darbexum_path_counts_t *counts);

/* Writes how many samples of an output channel were saturated so far. Returns 0, NO_ENGINE, or NONE for a channel that
 * the output lacks. */
int32_t darbexum_saturated(darbexum *handle, size_t channel, uint64_t *count);

/* Writes the samples of all channels of all streams in the block of the last datagram to the front of `out`, before
 * any gain: frame by frame, in each frame stream after stream. A sample has 24 bits: one of L16 is multiplied by 256.
 * It is 0 if no packet brought it. Before the first datagram all samples are 0. Call it once darbexum_turn or
 * darbexum_drain has returned a datagram, and before the call for the next one. Returns the number of samples: the
 * frames of the output times the channels of all streams. Returns NO_ENGINE or SHORT_ROOM if it fails. */
ptrdiff_t darbexum_inputs(darbexum *handle, int32_t *out, size_t len);

/* Writes how many streams are missing in the block of the last datagram. A stream is missing if, at some time of the
 * block, one of its gains is not 0 and no packet for that time was taken. So a stream that is silent or has ended is
 * missing until its gains are 0. Before the first datagram no stream is missing. Returns 1 if the block is empty:
 * streams are missing, and for no time of the block was a packet taken of a stream with a gain other than 0. All
 * samples of the datagram are 0 then. Returns 0 if the block is not empty, or NO_ENGINE. */
int32_t darbexum_missing(darbexum *handle, size_t *streams);

/* Returns the version of the library, in the form of DARBEXUM_VERSION. */
uint32_t darbexum_version(void);

/* Writes the text of a code to the front of `out`, cut so that a 0 fits behind it. Returns the length of the whole text,
 * without the 0. */
size_t darbexum_fault_text(int32_t code, uint8_t *out, size_t len);

#ifdef __cplusplus
}
#endif
#endif
