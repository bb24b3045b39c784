/* The texts of gamhilon_cite, read from the files of a folder, and the calls on them. A file that isn't there is an empty text. */
#include "gamhilon.h"

#include <stdio.h>
#include <stdlib.h>

enum { TEXTS = 5, TEXT_LENGTH = 1 << 20 };

/* Reads the texts, which free_texts frees; each in a block of just its length. */
static void read_texts(const char *folder, gamhilon_text *texts) {
    static const char *const names[TEXTS] = {"style.csl", "locales.json", "items.json", "citations.json", "options.json"};
    uint8_t *bytes = malloc(TEXT_LENGTH);
    char path[4096];
    for (int i = 0; i < TEXTS; i++) {
        snprintf(path, sizeof path, "%s/%s", folder, names[i]);
        FILE *file = fopen(path, "rb");
        size_t length = file ? fread(bytes, 1, TEXT_LENGTH, file) : 0;
        uint8_t *own = length > 0 ? malloc(length) : NULL;
        for (size_t k = 0; k < length; k++) own[k] = bytes[k];
        texts[i].bytes = own, texts[i].length = length;
        if (file) fclose(file);
    }
    free(bytes);
}

static void free_texts(gamhilon_text *texts) {
    for (int i = 0; i < TEXTS; i++) free((void *)texts[i].bytes);
}

#ifndef WITHOUT_CALLS
typedef uint32_t text_call(const gamhilon_text *, uint8_t *, size_t, size_t *);

static uint32_t cite_texts(const gamhilon_text *texts, uint8_t *buffer, size_t buffer_length, size_t *length) {
    return gamhilon_cite(texts[0], texts[1], texts[2], texts[3], texts[4], buffer, buffer_length, length);
}

static uint32_t find_in_texts(const gamhilon_text *texts, uint8_t *buffer, size_t buffer_length, size_t *length) {
    return gamhilon_find_cite_fault(texts[0], texts[1], texts[2], texts[3], texts[4], buffer, buffer_length, length);
}

static uint32_t read_items(const gamhilon_text *texts, uint8_t *buffer, size_t buffer_length, size_t *length) {
    return gamhilon_read_references(texts[2], texts[4], buffer, buffer_length, length);
}

enum { TEXT_CALLS = 3 };

/* The calls on texts. */
static text_call *const text_calls[TEXT_CALLS] = {cite_texts, find_in_texts, read_items};
#endif
