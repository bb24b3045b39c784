/* threads FILE..: eight threads at once, each of which answers all documents again and again, in both forms, on buffers of its
 * own; each answer is held to that of a call alone. */
#include "gamhilon.h"

#include <pthread.h>
#include <stdio.h>
#include <stdlib.h>
#include <string.h>

enum { THREADS = 8, TIMES = 20, BUFFER_LENGTH = 1 << 21 };

typedef uint32_t call(const uint8_t *, size_t, uint8_t *, size_t, size_t *);

typedef struct {
    uint8_t *document, *answers[2];
    size_t n, lengths[2];
    uint32_t statuses[2];
} work;

static call *const calls[2] = {gamhilon_render_text, gamhilon_render_json};
static work *works;
static int count;

static void *worker(void *first) {
    uint8_t *buffer = malloc(BUFFER_LENGTH);
    size_t length, wrong = 0;
    for (int t = 0; t < TIMES * count; t++) {
        const work *it = &works[(t + *(int *)first) % count];
        for (int form = 0; form < 2; form++) {
            uint32_t status = calls[form](it->document, it->n, buffer, BUFFER_LENGTH, &length);
            wrong += status != it->statuses[form] || length != it->lengths[form] || memcmp(buffer, it->answers[form], length) != 0;
        }
    }
    free(buffer);
    return (void *)wrong;
}

int main(int argc, char **argv) {
    pthread_t threads[THREADS];
    int firsts[THREADS];
    size_t wrong = 0;
    count = argc - 1;
    works = calloc((size_t)count, sizeof *works);
    for (int i = 0; i < count; i++) {
        FILE *file = fopen(argv[i + 1], "rb");
        works[i].document = malloc(BUFFER_LENGTH);
        works[i].n = fread(works[i].document, 1, BUFFER_LENGTH, file);
        fclose(file);
        for (int form = 0; form < 2; form++) {
            works[i].answers[form] = malloc(BUFFER_LENGTH);
            works[i].statuses[form] = calls[form](works[i].document, works[i].n, works[i].answers[form], BUFFER_LENGTH, &works[i].lengths[form]);
        }
    }
    for (int i = 0; i < THREADS; i++) {
        firsts[i] = i * count / THREADS;
        pthread_create(&threads[i], NULL, worker, &firsts[i]);
    }
    for (int i = 0; i < THREADS; i++) {
        void *got;
        pthread_join(threads[i], &got);
        wrong += (size_t)got;
    }
    printf("%d calls in %d threads, %zu wrong\n", 2 * THREADS * TIMES * count, THREADS, wrong);
    return wrong != 0;
}
