/* cite: writes citations by a style file, and the list of what they cite, as JSON (docs/ANSWER.md).
 *
 *     cite STYLE.csl ITEMS CITATIONS.json [LOCALE.xml..]
 *
 * What is odd in the files is told on standard error; so is why there is no answer, where the exit
 * status is that of gamhilon.h, and 1 where reading or writing fails. Built at the root of the
 * repository by
 *     cc -Iembed -o cite embed/c/cite.c embed/out/libgamhilon.a */
#include "gamhilon.h"

#include <stdio.h>
#include <stdlib.h>
#include <string.h>

/* Where reading or writing fails; where the words make no command. */
enum { IO_FAILED = 1, BAD_COMMAND_LINE = 64 };

static const char usage[] =
    "usage: cite STYLE.csl ITEMS CITATIONS.json [LOCALE.xml..]\n"
    "\n"
    "Writes citations and the list of what they cite as JSON (docs/ANSWER.md), by a style of\n"
    "CSL 1.0.2 that stands for itself. ITEMS is CSL-JSON, BibTeX, BibLaTeX or RIS, and\n"
    "CITATIONS.json a list of citations, which are lists of cites:\n"
    "[[{\"id\": \"doe99\", \"locator\": \"4\"}]]. American English needs no locale file.\n";

typedef struct {
    char *bytes;
    size_t length, capacity;
} text;

typedef uint32_t call(gamhilon_text, gamhilon_text, gamhilon_text, gamhilon_text, gamhilon_text,
                      uint8_t *, size_t, size_t *);

/* Adds bytes to a text; where there is no memory for them, the process ends. */
static void add(text *to, const char *bytes, size_t length) {
    if (to->capacity - to->length < length) {
        to->capacity = 2 * to->capacity + length;
        to->bytes = realloc(to->bytes, to->capacity);
        if (to->bytes == NULL) exit(GAMHILON_OUT_OF_MEMORY);
    }
    if (length > 0) memcpy(to->bytes + to->length, bytes, length);
    to->length += length;
}

/* The bytes of a file; where it can't be read, the process ends. */
static text read_file(const char *path) {
    text all = {NULL, 0, 0};
    char block[1 << 12];
    size_t got;
    FILE *file = fopen(path, "rb");
    while (file != NULL && (got = fread(block, 1, sizeof block, file)) > 0) add(&all, block, got);
    if (file == NULL || ferror(file)) {
        perror(path);
        exit(IO_FAILED);
    }
    fclose(file);
    return all;
}

/* Adds a text as JSON. */
static void add_json(text *to, const text *added) {
    add(to, "\"", 1);
    for (size_t i = 0; i < added->length; i++) {
        unsigned char c = (unsigned char)added->bytes[i];
        const char *form = c < 0x20 || c == '"' || c == '\\' ? "\\u%04x" : "%c";
        char escaped[8];
        int length = snprintf(escaped, sizeof escaped, form, c);
        add(to, escaped, (size_t)length);
    }
    add(to, "\"", 1);
}

/* The list of locale files, as JSON. */
static text list_of(char **paths, int count) {
    text list = {NULL, 0, 0};
    add(&list, "[", 1);
    for (int i = 0; i < count; i++) {
        text file = read_file(paths[i]);
        if (i > 0) add(&list, ",", 1);
        add_json(&list, &file);
        free(file.bytes);
    }
    add(&list, "]", 1);
    return list;
}

/* A text as the library takes it. */
static gamhilon_text given(const text *own) {
    gamhilon_text given = {(const uint8_t *)own->bytes, own->length};
    return given;
}

/* What a call puts into a buffer that is mostly large enough at once, and its status. */
static uint32_t called(call *f, const text *style, const text *locales, const text *items,
                       const text *citations, text *out) {
    uint32_t status;
    gamhilon_text none = {NULL, 0};
    size_t needed = 8 * (items->length + citations->length) + (1 << 16);
    do {
        free(out->bytes);
        out->capacity = needed;
        out->bytes = malloc(needed);
        if (out->bytes == NULL) return GAMHILON_OUT_OF_MEMORY;
        status = f(given(style), given(locales), given(items), given(citations), none,
                   (uint8_t *)out->bytes, out->capacity, &needed);
    } while (status == GAMHILON_BUFFER_TOO_SMALL);
    out->length = needed;
    return status;
}

/* Whether nothing is wrong or odd. */
static int is_silent(const text *found) {
    static const char nothing[] = "{\"warnings\":[]}";
    return found->length == sizeof nothing - 1
           && memcmp(found->bytes, nothing, found->length) == 0;
}

static void show(FILE *stream, const text *shown) {
    fwrite(shown->bytes, 1, shown->length, stream);
    putc('\n', stream);
}

int main(int argc, char **argv) {
    text found = {NULL, 0, 0}, answer = {NULL, 0, 0};
    if (argc == 2 && strcmp(argv[1], "--help") == 0)
        return fputs(usage, stdout) < 0 || fflush(stdout) != 0 ? IO_FAILED : 0;
    if (argc < 4) return fputs(usage, stderr), BAD_COMMAND_LINE;
    text style = read_file(argv[1]), items = read_file(argv[2]), citations = read_file(argv[3]);
    text locales = list_of(argv + 4, argc - 4);
    uint32_t status =
        called(gamhilon_find_cite_fault, &style, &locales, &items, &citations, &found);
    if (status == GAMHILON_OK) {
        if (!is_silent(&found)) show(stderr, &found);
        status = called(gamhilon_cite, &style, &locales, &items, &citations, &answer);
    }
    if (status == GAMHILON_OK) show(stdout, &answer);
    else
        fprintf(stderr, "cite: no answer: %s (status %u)\n", gamhilon_status_text(status),
                (unsigned)status);
    if (fflush(stdout) != 0) status = IO_FAILED;
    free(style.bytes), free(items.bytes), free(citations.bytes);
    free(locales.bytes), free(found.bytes), free(answer.bytes);
    return (int)status;
}
