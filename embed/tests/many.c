/* many COUNT FILE..: COUNT calls in four threads, for valgrind: of each document the text, the JSON, the fault, the place of a
 * ring and whether it is within limits, in buffers of every length around the right one, and in none. */
#include "gamhilon.h"

#include <pthread.h>
#include <stdio.h>
#include <stdlib.h>
#include <string.h>

enum { THREADS = 4, AROUND = 16, BUFFER_LENGTH = 1 << 22 };

typedef uint32_t call(const uint8_t *, size_t, uint8_t *, size_t, size_t *);

typedef struct {
    uint8_t *document;
    size_t n, lengths[3];
    uint32_t statuses[3], limited;
} work;

static call *const calls[3] = {gamhilon_render_text, gamhilon_render_json, gamhilon_find_fault};
static work *works;
static int count, times;

/* One call, in a buffer that is allocated in just its length, and what is wrong with how it ends. */
static size_t tried(const work *it, int form, size_t buffer_length) {
    size_t length = 77;
    uint8_t *buffer = buffer_length > 0 ? malloc(buffer_length) : NULL;
    uint32_t status = calls[form](it->document, it->n, buffer, buffer_length, &length), wanted = it->statuses[form];
    if (wanted == GAMHILON_OK && buffer_length < it->lengths[form]) wanted = GAMHILON_BUFFER_TOO_SMALL;
    free(buffer);
    return status != wanted || length != it->lengths[form];
}

static void *worker(void *first) {
    size_t wrong = 0;
    for (int t = *(int *)first; t < times; t += THREADS) {
        const work *it = &works[t % count];
        int form = t / count % 5, step = t / count / 5 % (2 * AROUND + 1) - AROUND;
        gamhilon_ring_location ring;
        if (form == 3) wrong += gamhilon_find_ring(it->document, it->n, &ring) != it->statuses[0];
        else if (form == 4) wrong += gamhilon_check_limits(it->document, it->n, 100, 100000) != it->limited;
        else if (step < 0 && it->lengths[form] < (size_t)-step) wrong += tried(it, form, 0);
        else wrong += tried(it, form, it->lengths[form] + (size_t)step);
    }
    return (void *)wrong;
}

int main(int argc, char **argv) {
    pthread_t threads[THREADS];
    int firsts[THREADS];
    size_t wrong = 0;
    uint8_t *buffer = malloc(BUFFER_LENGTH);
    times = atoi(argv[1]);
    count = argc - 2;
    works = calloc((size_t)count, sizeof *works);
    for (int i = 0; i < count; i++) {
        FILE *file = fopen(argv[i + 2], "rb");
        size_t n = fread(buffer, 1, BUFFER_LENGTH, file);
        fclose(file);
        works[i].document = malloc(n > 0 ? n : 1);
        works[i].n = n;
        memcpy(works[i].document, buffer, n);
        for (int form = 0; form < 3; form++)
            works[i].statuses[form] = calls[form](works[i].document, n, buffer, BUFFER_LENGTH, &works[i].lengths[form]);
        works[i].limited = gamhilon_check_limits(works[i].document, n, 100, 100000);
    }
    for (int i = 0; i < THREADS; i++) {
        firsts[i] = i;
        pthread_create(&threads[i], NULL, worker, &firsts[i]);
    }
    for (int i = 0; i < THREADS; i++) {
        void *got;
        pthread_join(threads[i], &got);
        wrong += (size_t)got;
    }
    for (int i = 0; i < count; i++) free(works[i].document);
    free(works);
    free(buffer);
    printf("%d calls in %d threads, %zu wrong\n", times, THREADS, wrong);
    return wrong != 0;
}
