/* calls FORM LENGTH FILE..: answers each document in a buffer of LENGTH bytes, and where that is too small in one that
 * fits, and holds each call to what gamhilon.h says of the buffer and of the length. Writes of each a line "STATUS
 * LENGTH", and the answer. FORM is text, json, fault, drive or drive_fault. */
#include "gamhilon.h"

#include <stdio.h>
#include <stdlib.h>
#include <string.h>

typedef uint32_t call(const uint8_t *, size_t, uint8_t *, size_t, size_t *);

enum { GUARD = 64, FORMS = 5 };

static const char *const forms[FORMS] = {"text", "json", "fault", "drive", "drive_fault"};
static call *const calls[FORMS] = {gamhilon_render_text, gamhilon_render_json, gamhilon_find_fault, gamhilon_drive, gamhilon_find_driven_fault};

static int failed;

static void hold(int holds, const char *file, const char *what) {
    if (!holds) {
        fprintf(stderr, "%s: %s\n", file, what);
        failed = 1;
    }
}

static int is_filled(const uint8_t *bytes, size_t length) {
    for (size_t i = 0; i < length; i++)
        if (bytes[i] != 0xA5) return 0;
    return 1;
}

/* One call, in a buffer with a guard behind it, all filled before. */
static uint32_t tried(call *f, const char *file, const uint8_t *document, size_t n, uint8_t *buffer, size_t buffer_length, size_t *length) {
    memset(buffer, 0xA5, buffer_length + GUARD);
    *length = 12345;
    uint32_t status = f(document, n, buffer, buffer_length, length);
    hold(is_filled(buffer + buffer_length, GUARD), file, "bytes behind the buffer changed");
    if (status == GAMHILON_OK) {
        hold(*length <= buffer_length, file, "the answer is longer than its buffer");
        hold(is_filled(buffer + *length, buffer_length - *length), file, "the rest of the buffer changed");
    } else {
        hold(is_filled(buffer, buffer_length), file, "the buffer changed though there is no answer");
        hold(status == GAMHILON_BUFFER_TOO_SMALL ? *length > buffer_length : *length == 0, file, "the length is wrong");
    }
    return status;
}

int main(int argc, char **argv) {
    int form = 0;
    while (form < FORMS && strcmp(argv[1], forms[form]) != 0) form++;
    if (form == FORMS) return 2;
    call *f = calls[form];
    size_t given_buffer = strtoul(argv[2], NULL, 10);
    for (int i = 3; i < argc; i++) {
        FILE *file = fopen(argv[i], "rb");
        size_t capacity = 1 << 22, length;
        uint8_t *document = malloc(capacity), *buffer = malloc(given_buffer + GUARD);
        size_t n = fread(document, 1, capacity, file);
        fclose(file);
        uint32_t status = tried(f, argv[i], document, n, buffer, given_buffer, &length);
        if (status == GAMHILON_BUFFER_TOO_SMALL) {
            size_t told = length;
            buffer = realloc(buffer, told + GUARD);
            status = tried(f, argv[i], document, n, buffer, told, &length);
            hold(status == GAMHILON_OK && length == told, argv[i], "it didn't fit in a buffer of the length that was told");
        }
        printf("%u %zu\n", (unsigned)status, length);
        if (status == GAMHILON_OK) fwrite(buffer, 1, length, stdout);
        free(buffer);
        free(document);
    }
    (void)argc;
    return failed;
}
