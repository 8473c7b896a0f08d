/* play.c - plays a trace through libdarbexum, and writes the report of `darbexum play`: play CONFIG < TRACE. */
#include <darbexum.h>
#include <inttypes.h>
#include <stdio.h>
#include <stdlib.h>
#include <string.h>

enum { MAX_DATAGRAM = 1 << 16, MAX_LINE = 2 * MAX_DATAGRAM + 64, MAX_CONFIG = 1 << 20 };

static int fail_code(const char *what, int32_t code) {
    uint8_t text[128];
    size_t len = darbexum_fault_text(code, text, sizeof text);
    fprintf(stderr, "%s: %s (%zu)\n", what, (char *)text, len);
    return 1;
}

static void print_datagram(const uint8_t *octets, ptrdiff_t len) {
    printf("out ");
    for (ptrdiff_t i = 0; i < len; i++) printf("%02x", octets[i]);
    printf("\n");
}

/* Reads hexadecimal octets, and returns their number. */
static size_t octets_of(const char *hex, uint8_t *octets) {
    size_t len = strlen(hex) / 2;
    for (size_t i = 0; i < len; i++) {
        char pair[3] = {hex[2 * i], hex[2 * i + 1], 0};
        octets[i] = (uint8_t)strtoul(pair, NULL, 16);
    }
    return len;
}

/* Passes a line of the trace to the engine. Returns 0, or a code. */
static int32_t take(darbexum *engine, char *line) {
    static uint8_t out[DARBEXUM_MAX_OCTETS], octets[MAX_DATAGRAM];
    static char hex[MAX_LINE];
    ptrdiff_t n;
    if (!strncmp(line, "tick ", 5)) {
        int64_t now = strtoll(line + 5, NULL, 10);
        while ((n = darbexum_turn(engine, now, out, sizeof out)) > 0) print_datagram(out, n);
        return (int32_t)n;
    }
    if (!strcmp(line, "close")) {
        int32_t code = darbexum_close(engine);
        while (!code && (n = darbexum_drain(engine, out, sizeof out)) > 0) print_datagram(out, n);
        return code;
    }
    char path;
    unsigned stream;
    hex[0] = 0;
    if (sscanf(line, "%c %u %131135s", &path, &stream, hex) < 2) return DARBEXUM_NONE;
    int32_t code = darbexum_arrive(engine, stream, (uint8_t)(path - 'a'), octets, octets_of(hex, octets));
    return code < 0 ? code : 0;
}

static void print_counts(darbexum *engine) {
    for (size_t stream = 0; stream < darbexum_streams(engine); stream++) {
        darbexum_stream_t spec = {.size = sizeof spec};
        darbexum_stream(engine, stream, &spec);
        for (uint8_t path = 0; path < spec.paths; path++) {
            darbexum_path_counts_t p = {.size = sizeof p};
            darbexum_path_counts(engine, stream, path, &p);
            printf("path %zu %c offered %" PRIu64 " sent %" PRIu64 " bad %" PRIu64 " type %" PRIu64 " length %" PRIu64 " full %" PRIu64 "\n",
                   stream, 'a' + path, p.offered, p.sent, p.bad, p.wrong_type, p.wrong_length, p.full);
        }
        darbexum_counts_t c = {.size = sizeof c};
        darbexum_counts(engine, stream, &c);
        printf("merge %zu arrived %" PRIu64 " taken %" PRIu64, stream, c.arrived, c.taken);
        for (uint8_t path = 0; path < spec.paths; path++) printf(" from_%c %" PRIu64, 'a' + path, c.taken_by[path]);
        printf(" double %" PRIu64 " unlike %" PRIu64 " off_grid %" PRIu64 " late %" PRIu64 " ahead %" PRIu64 " source %" PRIu64
               " got %" PRIu64 " lost %" PRIu64 " restarts %" PRIu64 "\n",
               c.double_, c.unlike, c.off_grid, c.late, c.ahead, c.wrong_source, c.got, c.lost, c.restarts);
    }
}

int main(int count, char **words) {
    static uint8_t config[MAX_CONFIG + 1], text[256];
    static char line[MAX_LINE];
    FILE *file = count > 1 ? fopen(words[1], "rb") : NULL;
    if (!file) return fail_code("play CONFIG < TRACE", DARBEXUM_NONE);
    size_t len = fread(config, 1, sizeof config, file);
    fclose(file);
    darbexum engine = DARBEXUM_EMPTY;
    if (darbexum_open(&engine, config, len, text, sizeof text)) {
        fprintf(stderr, "config %s\n", (char *)text);
        return 1;
    }
    int32_t code = 0;
    while (!code && fgets(line, sizeof line, stdin)) {
        line[strcspn(line, "\r\n")] = 0;
        if (line[0] && line[0] != '#') code = take(&engine, line);
    }
    if (code) fail_code("trace", code);
    else print_counts(&engine);
    darbexum_free(&engine);
    return code != 0;
}
