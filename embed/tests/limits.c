/* limits STACK [DEPTH ELEMENTS FILE]..: asks gamhilon_check_limits of each document, in a thread with a stack of STACK bytes. Writes a
 * line with the status of each. */
#include "gamhilon.h"

#include <pthread.h>
#include <stdio.h>
#include <stdlib.h>

enum { BUFFER_LENGTH = 1 << 22 };

static uint8_t document[BUFFER_LENGTH];
static size_t n, depth, elements;
static uint32_t status;

static void *worker(void *unused) {
    status = gamhilon_check_limits(document, n, depth, elements);
    return unused;
}

int main(int argc, char **argv) {
    pthread_t thread;
    pthread_attr_t how;
    pthread_attr_init(&how);
    if (pthread_attr_setstacksize(&how, strtoul(argv[1], NULL, 10)) != 0) return 1;
    for (int i = 2; i + 2 < argc; i += 3) {
        FILE *file = fopen(argv[i + 2], "rb");
        n = fread(document, 1, sizeof document, file);
        fclose(file);
        depth = strtoul(argv[i], NULL, 10), elements = strtoul(argv[i + 1], NULL, 10);
        if (pthread_create(&thread, &how, worker, NULL) != 0) return 1;
        pthread_join(thread, NULL);
        printf("%u\n", (unsigned)status);
    }
    return 0;
}
