/* faults.c - each code, and calls in every wrong order: faults CONFIG. The configuration is that of examples/first. It prints
 * what differs, and returns how many did. */
#include <darbexum.h>
#include <stdio.h>
#include <stdlib.h>
#include <string.h>

static int differing;

#define EXPECT(call, wanted) expect(#call, (long long)(call), (long long)(wanted))

static void expect(const char *call, long long found, long long wanted) {
    if (found != wanted) differing++, printf("%s is %lld, not %lld\n", call, found, wanted);
}

/* Every call on a handle without an engine. */
static void expect_empty(darbexum *engine) {
    static uint8_t room[DARBEXUM_MAX_OCTETS];
    int64_t time = 7;
    uint64_t count = 7;
    int32_t sample = 7;
    size_t missing = 7;
    darbexum_output_t output = {.size = sizeof output};
    darbexum_stream_t stream = {.size = sizeof stream};
    darbexum_counts_t counts = {.size = sizeof counts};
    darbexum_path_counts_t paths = {.size = sizeof paths};
    EXPECT(darbexum_arrive(engine, 0, 0, room, 30), DARBEXUM_NO_ENGINE);
    EXPECT(darbexum_turn(engine, 0, room, sizeof room), DARBEXUM_NO_ENGINE);
    EXPECT(darbexum_close(engine), DARBEXUM_NO_ENGINE);
    EXPECT(darbexum_drain(engine, room, sizeof room), DARBEXUM_NO_ENGINE);
    EXPECT(darbexum_next_deadline(engine, &time), DARBEXUM_NO_ENGINE);
    EXPECT(darbexum_time(engine, &time), DARBEXUM_NO_ENGINE);
    EXPECT(darbexum_next_block_start(engine, &time), DARBEXUM_NO_ENGINE);
    EXPECT(darbexum_change_gains(engine, 0, &(int32_t){0}, 1), DARBEXUM_NO_ENGINE);
    EXPECT(darbexum_settled(engine), DARBEXUM_NO_ENGINE);
    EXPECT(darbexum_streams(engine), 0);
    EXPECT(darbexum_output(engine, &output), DARBEXUM_NO_ENGINE);
    EXPECT(darbexum_stream(engine, 0, &stream), DARBEXUM_NO_ENGINE);
    EXPECT(darbexum_counts(engine, 0, &counts), DARBEXUM_NO_ENGINE);
    EXPECT(darbexum_path_counts(engine, 0, 0, &paths), DARBEXUM_NO_ENGINE);
    EXPECT(darbexum_saturated(engine, 0, &count), DARBEXUM_NO_ENGINE);
    EXPECT(darbexum_inputs(engine, &sample, 0), DARBEXUM_NO_ENGINE);
    EXPECT(darbexum_inputs(engine, &sample, 1), DARBEXUM_NO_ENGINE);
    EXPECT(darbexum_missing(engine, &missing), DARBEXUM_NO_ENGINE);
    EXPECT(time == 7 && count == 7 && sample == 7 && missing == 7, 1);
    darbexum_free(engine);
}

static void expect_open(darbexum *engine, const char *config, size_t len, int32_t code, const char *wanted) {
    uint8_t text[256] = {1};
    EXPECT(darbexum_open(engine, (const uint8_t *)config, len, text, sizeof text), code);
    if (strcmp((char *)text, wanted)) differing++, printf("the text is '%s', not '%s'\n", (char *)text, wanted);
}

static void expect_structs(darbexum *engine) {
    darbexum_output_t output = {.size = sizeof output - 1, .channels = 9};
    EXPECT(darbexum_output(engine, &output), DARBEXUM_SHORT_ROOM);
    EXPECT(output.channels, 9);
    output.size = sizeof output;
    EXPECT(darbexum_output(engine, &output), 0);
    EXPECT(output.start, 0);
    EXPECT(output.sample_octets, 3);
    EXPECT(output.channels, 1);
    EXPECT(output.frames, 6);
    EXPECT(output.payload_type, 97);
    EXPECT(output.ssrc, 2);
    EXPECT(output.datagram_octets, 30);
    darbexum_stream_t stream = {.size = sizeof stream - 1};
    EXPECT(darbexum_stream(engine, 5, &stream), DARBEXUM_SHORT_ROOM);
    stream.size = sizeof stream + 8;
    EXPECT(darbexum_stream(engine, 1, &stream), DARBEXUM_NO_STREAM);
    EXPECT(darbexum_stream(engine, (size_t)-1, &stream), DARBEXUM_NO_STREAM);
    EXPECT(darbexum_stream(engine, 0, &stream), 0);
    EXPECT(stream.size, sizeof stream + 8);
    EXPECT(stream.paths * 1000 + stream.latency * 10 + stream.clock, 2120);
    EXPECT(stream.frames * 1000 + stream.window * 100 + stream.payload_type, 6896);
    EXPECT(stream.channels * 10 + stream.sample_octets, 13);
    darbexum_counts_t counts = {.size = 0};
    EXPECT(darbexum_counts(engine, 0, &counts), DARBEXUM_SHORT_ROOM);
    counts.size = sizeof counts;
    EXPECT(darbexum_counts(engine, 1, &counts), DARBEXUM_NO_STREAM);
    darbexum_path_counts_t paths = {.size = sizeof paths - 1};
    EXPECT(darbexum_path_counts(engine, 0, 0, &paths), DARBEXUM_SHORT_ROOM);
    paths.size = sizeof paths;
    EXPECT(darbexum_path_counts(engine, 1, 0, &paths), DARBEXUM_NO_STREAM);
    EXPECT(darbexum_path_counts(engine, 0, 2, &paths), DARBEXUM_NO_PATH);
    EXPECT(darbexum_path_counts(engine, 0, 255, &paths), DARBEXUM_NO_PATH);
    EXPECT(darbexum_path_counts(engine, 0, 1, &paths), 0);
    uint64_t count = 7;
    EXPECT(darbexum_saturated(engine, 1, &count), DARBEXUM_NONE);
    EXPECT(count, 7);
    EXPECT(darbexum_saturated(engine, 0, &count), 0);
    EXPECT(count, 0);
}

/* Expects a last block of six samples: this one, and then 0. No stream is missing in it. */
static void expect_block(darbexum *engine, int32_t first) {
    int32_t samples[7] = {7, 7, 7, 7, 7, 7, 7};
    size_t missing = 7;
    EXPECT(darbexum_inputs(engine, samples, 0), DARBEXUM_SHORT_ROOM);
    EXPECT(darbexum_inputs(engine, samples, 5), DARBEXUM_SHORT_ROOM);
    for (int i = 0; i < 7; i++) EXPECT(samples[i], 7);
    EXPECT(darbexum_inputs(engine, samples, 7), 6);
    for (int i = 0; i < 7; i++) EXPECT(samples[i], i == 0 ? first : i == 6 ? 7 : 0);
    EXPECT(darbexum_inputs(engine, samples, 6), 6);
    EXPECT(darbexum_missing(engine, &missing), 0);
    EXPECT(missing, 0);
}

/* Changes of the one gain of an engine that has given no block. The last leaves it at 1. */
static void expect_gains(darbexum *engine) {
    const int64_t last = (int64_t)1 << 60;
    int32_t gains[2] = {65536, 65536};
    int64_t start = -1;
    EXPECT(darbexum_next_block_start(engine, &start), 0);
    EXPECT(start, 0);
    EXPECT(darbexum_change_gains(engine, 0, gains, 0), DARBEXUM_BAD_SHAPE);
    EXPECT(darbexum_change_gains(engine, -1, gains, 2), DARBEXUM_BAD_SHAPE);
    gains[0] = 1048577;
    EXPECT(darbexum_change_gains(engine, -1, gains, 1), DARBEXUM_BAD_GAIN);
    gains[0] = INT32_MIN;
    EXPECT(darbexum_change_gains(engine, -1, gains, 1), DARBEXUM_BAD_GAIN);
    gains[0] = 65536;
    EXPECT(darbexum_change_gains(engine, -1, gains, 1), DARBEXUM_BAD_TIME);
    EXPECT(darbexum_change_gains(engine, last + 1, gains, 1), DARBEXUM_BAD_TIME);
    EXPECT(darbexum_change_gains(engine, INT64_MAX, gains, 1), DARBEXUM_BAD_TIME);
    for (int64_t at = 1; at <= 64; at++) EXPECT(darbexum_change_gains(engine, at, gains, 1), 0);
    EXPECT(darbexum_change_gains(engine, last, gains, 1), DARBEXUM_TOO_MANY);
    EXPECT(darbexum_change_gains(engine, 0, gains, 1), 0);
    EXPECT(darbexum_change_gains(engine, last, gains, 1), 0);
}

static void expect_run(darbexum *engine) {
    uint8_t packet[30] = {0x80, 96, 0, 1, [11] = 1, [14] = 5}, out[DARBEXUM_MAX_OCTETS] = {0};
    int64_t time = -1;
    EXPECT(darbexum_arrive(engine, 0, 0, packet, 0), DARBEXUM_BAD);
    EXPECT(darbexum_arrive(engine, 0, 0, packet, 29), DARBEXUM_WRONG_LENGTH);
    EXPECT(darbexum_arrive(engine, 0, 0, packet, 30), DARBEXUM_TAKEN);
    EXPECT(darbexum_arrive(engine, 0, 1, packet, 30), DARBEXUM_DOUBLE);
    packet[20] = 1;
    EXPECT(darbexum_arrive(engine, 0, 1, packet, 30), DARBEXUM_UNLIKE);
    packet[11] = 2;
    EXPECT(darbexum_arrive(engine, 0, 1, packet, 30), DARBEXUM_WRONG_SOURCE);
    packet[1] = 97;
    EXPECT(darbexum_arrive(engine, 0, 1, packet, 30), DARBEXUM_WRONG_TYPE);
    EXPECT(darbexum_arrive(engine, 1, 0, packet, 30), DARBEXUM_NO_STREAM);
    EXPECT(darbexum_arrive(engine, (size_t)-1, 0, packet, 30), DARBEXUM_NO_STREAM);
    EXPECT(darbexum_arrive(engine, 0, 2, packet, 30), DARBEXUM_NO_PATH);
    EXPECT(darbexum_arrive(engine, 9, 255, packet, 30), DARBEXUM_NO_PATH);
    EXPECT(darbexum_drain(engine, out, sizeof out), 0);
    EXPECT(darbexum_drain(engine, out, 29), DARBEXUM_SHORT_ROOM);
    EXPECT(darbexum_turn(engine, 12, out, 29), DARBEXUM_SHORT_ROOM);
    EXPECT(darbexum_turn(engine, -1, out, 30), DARBEXUM_WENT_BACK);
    EXPECT(darbexum_turn(engine, INT64_MIN, out, 30), DARBEXUM_WENT_BACK);
    EXPECT(darbexum_turn(engine, ((int64_t)1 << 60) + 1, out, 30), DARBEXUM_TOO_FAR);
    EXPECT(darbexum_turn(engine, INT64_MAX, out, 30), DARBEXUM_TOO_FAR);
    EXPECT(darbexum_next_deadline(engine, &time), 0);
    EXPECT(time, 12);
    expect_block(engine, 0);
    EXPECT(darbexum_turn(engine, 12, out, 30), 30);
    expect_block(engine, 5);
    EXPECT(darbexum_arrive(engine, 0, 0, packet, 30), DARBEXUM_UNFINISHED);
    EXPECT(darbexum_close(engine), DARBEXUM_UNFINISHED);
    EXPECT(darbexum_next_deadline(engine, &time), DARBEXUM_NONE);
    EXPECT(darbexum_turn(engine, 12, out, 30), 0);
    EXPECT(darbexum_turn(engine, 11, out, 30), DARBEXUM_WENT_BACK);
    EXPECT(darbexum_time(engine, &time), 0);
    EXPECT(time, 12);
    EXPECT(darbexum_settled(engine), 0);
    EXPECT(darbexum_close(engine), 0);
    EXPECT(darbexum_close(engine), 0);
    EXPECT(darbexum_arrive(engine, 0, 0, packet, 30), DARBEXUM_WRONG_TYPE);
    packet[1] = 96;
    EXPECT(darbexum_arrive(engine, 0, 0, packet, 30), DARBEXUM_AFTER_CLOSE);
    EXPECT(darbexum_turn(engine, 13, out, 30), DARBEXUM_CLOSED);
    EXPECT(darbexum_drain(engine, out, 30), 0);
    EXPECT(darbexum_drain(engine, out, 30), 0);
    EXPECT(darbexum_settled(engine), 1);
    /* The last datagram is still the first one. */
    expect_block(engine, 5);
}

/* A packet comes, and the next one does not: the second block is empty. */
static void expect_lost(darbexum *engine) {
    uint8_t packet[30] = {0x80, 96, 0, 1, [11] = 1, [14] = 5}, out[DARBEXUM_MAX_OCTETS];
    int32_t samples[6] = {7, 7, 7, 7, 7, 7};
    size_t missing = 7;
    EXPECT(darbexum_arrive(engine, 0, 0, packet, 30), DARBEXUM_TAKEN);
    EXPECT(darbexum_turn(engine, 18, out, 30), 30);
    expect_block(engine, 5);
    EXPECT(darbexum_turn(engine, 18, out, 30), 30);
    EXPECT(darbexum_missing(engine, &missing), 1);
    EXPECT(missing, 1);
    EXPECT(darbexum_inputs(engine, samples, 6), 6);
    for (int i = 0; i < 6; i++) EXPECT(samples[i], 0);
    EXPECT(darbexum_turn(engine, 18, out, 30), 0);
}

int main(int count, char **words) {
    static char config[(1 << 20) + 1], told[64];
    FILE *file = count > 1 ? fopen(words[1], "rb") : NULL;
    if (!file) return fprintf(stderr, "faults CONFIG\n"), 2;
    size_t len = fread(config, 1, sizeof config, file);
    fclose(file);
    darbexum engine = DARBEXUM_EMPTY;
    expect_empty(&engine);
    const char *no_toml = "the configuration is not TOML, or has more than 1048576 octets";
    expect_open(&engine, "", 0, DARBEXUM_NO_STUDIO, "open_at: missing");
    expect_open(&engine, "=", 1, DARBEXUM_NO_TOML, no_toml);
    expect_open(&engine, "a = \"\xff\"", 7, DARBEXUM_NO_TOML, no_toml);
    expect_open(&engine, "open_at = 0\n", 12, DARBEXUM_NO_STUDIO, "stream: missing");
    expect_empty(&engine);
    EXPECT(darbexum_open(&engine, (uint8_t *)"=", 1, (uint8_t *)told, 4), DARBEXUM_NO_TOML);
    EXPECT(memcmp(told, "the\0", 4), 0);
    EXPECT(darbexum_open(&engine, (uint8_t *)"=", 1, (uint8_t *)told, 0), DARBEXUM_NO_TOML);
    expect_open(&engine, config, len, 0, "");
    EXPECT(darbexum_streams(&engine), 1);
    /* After a code the handle keeps its engine. */
    expect_open(&engine, "=", 1, DARBEXUM_NO_TOML, no_toml);
    expect_structs(&engine);
    expect_gains(&engine);
    expect_run(&engine);
    /* Opened again: the engine before is freed. */
    expect_open(&engine, config, len, 0, "");
    EXPECT(darbexum_settled(&engine), 0);
    expect_lost(&engine);
    darbexum_free(&engine);
    darbexum_free(&engine);
    expect_empty(&engine);
    /* The longest configuration, and one octet more. */
    memset(config + len, '\n', sizeof config - len);
    expect_open(&engine, config, sizeof config - 1, 0, "");
    expect_open(&engine, config, sizeof config, DARBEXUM_NO_TOML, no_toml);
    darbexum_free(&engine);
    EXPECT(darbexum_version(), DARBEXUM_VERSION);
    for (int code = -18; code <= 0; code++) {
        size_t told_len = darbexum_fault_text(code, (uint8_t *)told, sizeof told);
        EXPECT(told_len, strlen(told));
        EXPECT(!strcmp(told, "unknown code"), code == -18);
        EXPECT(!strcmp(told, "no fault"), code == 0);
    }
    EXPECT(darbexum_fault_text(INT32_MIN, (uint8_t *)told, 0), strlen("unknown code"));
    EXPECT(darbexum_fault_text(INT32_MAX, (uint8_t *)told, 3), strlen("no fault"));
    EXPECT(strcmp(told, "no"), 0);
    return differing;
}
