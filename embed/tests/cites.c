/* cites LENGTH FOLDER..: answers the texts of each folder in a buffer of LENGTH bytes, and where that is too small in one that
 * fits; then finds what is wrong and odd in them, and reads their items, in the same way. Holds each call to what gamhilon.h says
 * of the buffer and of the length. Writes of each call a line "STATUS LENGTH", and what it puts into the buffer. */
#include "texts.h"

#include <string.h>

enum { GUARD = 64 };

static int failed;

static void hold(int holds, const char *folder, const char *what) {
    if (!holds) {
        fprintf(stderr, "%s: %s\n", folder, what);
        failed = 1;
    }
}

static int is_filled(const uint8_t *bytes, size_t length) {
    for (size_t i = 0; i < length; i++)
        if (bytes[i] != 0xA5) return 0;
    return 1;
}

/* One call, in a buffer with a guard behind it, all filled before. */
static uint32_t tried(text_call *f, const char *folder, const gamhilon_text *texts, uint8_t *buffer, size_t buffer_length, size_t *length) {
    memset(buffer, 0xA5, buffer_length + GUARD);
    *length = 12345;
    uint32_t status = f(texts, buffer, buffer_length, length);
    hold(is_filled(buffer + buffer_length, GUARD), folder, "bytes behind the buffer changed");
    if (status == GAMHILON_OK) {
        hold(*length <= buffer_length, folder, "the answer is longer than its buffer");
        hold(is_filled(buffer + *length, buffer_length - *length), folder, "the rest of the buffer changed");
    } else {
        hold(is_filled(buffer, buffer_length), folder, "the buffer changed though there is no answer");
        hold(status == GAMHILON_BUFFER_TOO_SMALL ? *length > buffer_length : *length == 0, folder, "the length is wrong");
    }
    return status;
}

static void try_call(text_call *f, const char *folder, const gamhilon_text *texts, size_t given_buffer) {
    size_t length;
    uint8_t *buffer = malloc(given_buffer + GUARD);
    uint32_t status = tried(f, folder, texts, buffer, given_buffer, &length);
    if (status == GAMHILON_BUFFER_TOO_SMALL) {
        size_t told = length;
        buffer = realloc(buffer, told + GUARD);
        status = tried(f, folder, texts, buffer, told, &length);
        hold(status == GAMHILON_OK && length == told, folder, "it didn't fit in a buffer of the length that was told");
    }
    printf("%u %zu\n", (unsigned)status, length);
    if (status == GAMHILON_OK) fwrite(buffer, 1, length, stdout);
    free(buffer);
}

int main(int argc, char **argv) {
    if (argc < 2) return 2;
    size_t given_buffer = strtoul(argv[1], NULL, 10);
    for (int i = 2; i < argc; i++) {
        gamhilon_text texts[TEXTS];
        read_texts(argv[i], texts);
        for (int call = 0; call < TEXT_CALLS; call++) try_call(text_calls[call], argv[i], texts, given_buffer);
        free_texts(texts);
    }
    return failed;
}
