/* memory.c - each allocation refused in turn: memory CONFIG. It is linked with -Wl,--wrap=malloc,--wrap=realloc. A refused
 * allocation is DARBEXUM_NO_MEMORY, and leaves the handle as it was; the call after it succeeds. It prints what differs. */
#include <darbexum.h>
#include <stdio.h>
#include <stdlib.h>
#include <string.h>

void *__real_malloc(size_t size);
void *__real_realloc(void *old, size_t size);
static long left; /* the allocations before the one that is refused; none is if it is below 0 */

static int is_refused(void) { return left >= 0 && left-- == 0; }
void *__wrap_malloc(size_t size) { return is_refused() ? NULL : __real_malloc(size); }
void *__wrap_realloc(void *old, size_t size) { return is_refused() ? NULL : __real_realloc(old, size); }

/* Opens a configuration with each allocation refused in turn, over a handle that has an engine, and at last with none. */
static int refuse_each(darbexum *engine, const uint8_t *config, size_t len, int32_t wanted) {
    for (long place = 0; place < 100000; place++) {
        uint8_t text[128] = {1};
        left = place;
        int32_t code = darbexum_open(engine, config, len, text, sizeof text);
        int was_refused = left < 0;
        left = -1;
        if (!was_refused) return printf("%ld allocations, then %d\n", place, code), code != wanted;
        /* A fault of the configuration keeps its code if only the memory of its text was refused. */
        int is_memory = code == DARBEXUM_NO_MEMORY && !strcmp((char *)text, "out of memory");
        int is_text = code == DARBEXUM_NO_STUDIO && wanted == code;
        if ((!is_memory && !is_text) || darbexum_streams(engine) == 0) return printf("allocation %ld: %d '%s'\n", place, code, text), 1;
    }
    return 1;
}

int main(int count, char **words) {
    static uint8_t config[1 << 16], text[128];
    left = -1;
    FILE *file = count > 1 ? fopen(words[1], "rb") : NULL;
    if (!file) return 2;
    size_t len = fread(config, 1, sizeof config, file);
    fclose(file);
    darbexum engine = DARBEXUM_EMPTY;
    if (darbexum_open(&engine, config, len, text, sizeof text)) return printf("%s\n", text), 1;
    int differs = refuse_each(&engine, config, len, 0);
    differs += refuse_each(&engine, (const uint8_t *)"open_at = 0\n", 12, DARBEXUM_NO_STUDIO);
    darbexum_free(&engine);
    return differs;
}
