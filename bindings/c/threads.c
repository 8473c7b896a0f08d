/* threads.c - a handle goes from thread to thread under a lock: threads CONFIG. One thread for each path passes the same
 * packets of 6 samples of L24, mono, and one turns. It prints the counts of the stream, which must be those of no race. */
#define _GNU_SOURCE
#include <darbexum.h>
#include <pthread.h>
#include <stdio.h>
#include <string.h>

enum { PACKETS = 2000, FRAMES = 6, LEN = 12 + 3 * FRAMES };
static darbexum engine = DARBEXUM_EMPTY;
static pthread_mutex_t lock = PTHREAD_MUTEX_INITIALIZER;
static pthread_barrier_t step;
static size_t given;

/* Passes each packet on a path, one step ahead of the thread that turns. */
static void *send_path(void *path) {
    for (unsigned number = 0; number < PACKETS; number++) {
        uint8_t octets[LEN] = {0x80, 96, (uint8_t)(number >> 8), (uint8_t)number};
        for (int i = 0; i < 4; i++) octets[4 + i] = (uint8_t)(number * FRAMES >> 8 * (3 - i));
        octets[11] = 1, octets[14] = (uint8_t)number;
        pthread_mutex_lock(&lock);
        darbexum_arrive(&engine, 0, *(uint8_t *)path, octets, sizeof octets);
        pthread_mutex_unlock(&lock);
        pthread_barrier_wait(&step);
        pthread_barrier_wait(&step);
    }
    return NULL;
}

static void *turn(void *none) {
    uint8_t out[DARBEXUM_MAX_OCTETS];
    for (int64_t number = 0; number < PACKETS; number++) {
        pthread_barrier_wait(&step);
        pthread_mutex_lock(&lock);
        while (darbexum_turn(&engine, number * FRAMES, out, sizeof out) > 0) given++;
        pthread_mutex_unlock(&lock);
        pthread_barrier_wait(&step);
    }
    return none;
}

int main(int count, char **words) {
    static uint8_t config[1 << 16], text[256], out[DARBEXUM_MAX_OCTETS], paths[2] = {0, 1};
    FILE *file = count > 1 ? fopen(words[1], "rb") : NULL;
    if (!file) return 2;
    size_t len = fread(config, 1, sizeof config, file);
    fclose(file);
    if (darbexum_open(&engine, config, len, text, sizeof text)) return fprintf(stderr, "%s\n", (char *)text), 1;
    pthread_barrier_init(&step, NULL, 3);
    pthread_t threads[3];
    pthread_create(&threads[0], NULL, send_path, &paths[0]);
    pthread_create(&threads[1], NULL, send_path, &paths[1]);
    pthread_create(&threads[2], NULL, turn, NULL);
    for (int i = 0; i < 3; i++) pthread_join(threads[i], NULL);
    darbexum_close(&engine);
    while (darbexum_drain(&engine, out, sizeof out) > 0) given++;
    darbexum_counts_t c = {.size = sizeof c};
    darbexum_counts(&engine, 0, &c);
    printf("datagrams %zu arrived %lu taken %lu double %lu lost %lu settled %d\n", given, (unsigned long)c.arrived, (unsigned long)c.taken, (unsigned long)c.double_, (unsigned long)c.lost, darbexum_settled(&engine));
    darbexum_free(&engine);
    darbexum_free(&engine);
    return 0;
}
