/* print: prints the citations and the bibliography of a document.
 *
 *     print [--json] [FILE]
 *
 * Without FILE, or where that is -, it reads standard input. Where there is no answer, it says why,
 * with the place where the document is wrong, and ends with the status of gamhilon.h; with 1 where
 * reading or writing fails. Built at the repository's root by
 *     cc -Iembed -o print embed/c/print.c embed/out/libgamhilon.a */
#include "gamhilon.h"

#include <stdio.h>
#include <stdlib.h>
#include <string.h>

/* Where reading or writing fails; where the words make no command. */
enum { IO_FAILED = 1, BAD_COMMAND_LINE = 64 };

static const char usage[] =
    "usage: print [--json] [FILE]\n"
    "\n"
    "Prints the citations and the bibliography of a document (docs/DOCUMENT.md), with --json as\n"
    "JSON (docs/ANSWER.md). Without FILE, or where that is -, it reads standard input.\n";

/* All that stands in a file, or null where there is no memory for it. */
static uint8_t *read_all(FILE *file, size_t *length) {
    size_t capacity = 1 << 16, got;
    uint8_t *bytes = malloc(capacity);
    *length = 0;
    while (bytes != NULL && (got = fread(bytes + *length, 1, capacity - *length, file)) > 0) {
        *length += got;
        if (*length == capacity) {
            uint8_t *more = realloc(bytes, capacity *= 2);
            if (more == NULL) free(bytes);
            bytes = more;
        }
    }
    return bytes;
}

/* Answers the document in a buffer that is mostly large enough at once, and gives the buffer. */
static uint8_t *answered(int as_json, const uint8_t *document, size_t n, size_t *length,
                         uint32_t *status) {
    uint8_t *buffer = NULL;
    size_t buffer_length;
    *length = (as_json ? 8 : 2) * n + 4096;
    do {
        free(buffer);
        buffer_length = *length;
        buffer = malloc(buffer_length);
        if (buffer == NULL) *status = GAMHILON_OUT_OF_MEMORY;
        else if (as_json)
            *status = gamhilon_render_json(document, n, buffer, buffer_length, length);
        else *status = gamhilon_render_text(document, n, buffer, buffer_length, length);
    } while (*status == GAMHILON_BUFFER_TOO_SMALL);
    return buffer;
}

/* Says on standard error why there is no answer, and where the document is wrong. */
static void refuse(const char *name, uint32_t status, const uint8_t *document, size_t n) {
    uint8_t fault[4096];
    size_t length = 0;
    fprintf(stderr, "print: %s: no answer: %s (status %u)", name, gamhilon_status_text(status),
            (unsigned)status);
    if (status == GAMHILON_DOCUMENT_REFUSED
        && gamhilon_find_fault(document, n, fault, sizeof fault, &length) == GAMHILON_OK)
        fprintf(stderr, ": %.*s", (int)length, (const char *)fault);
    putc('\n', stderr);
}

/* Prints the answer to what stands in a file, and gives the exit status. */
static uint32_t print(const char *name, FILE *file, int as_json) {
    size_t document_length, length = 0;
    uint32_t status = GAMHILON_OUT_OF_MEMORY;
    uint8_t *document = read_all(file, &document_length), *buffer = NULL;
    if (ferror(file)) {
        perror(name);
        free(document);
        return IO_FAILED;
    }
    if (document != NULL) buffer = answered(as_json, document, document_length, &length, &status);
    if (status != GAMHILON_OK) {
        refuse(name, status, document, document_length);
    } else if (fwrite(buffer, 1, length, stdout) != length || fflush(stdout) != 0) {
        perror("standard output");
        status = IO_FAILED;
    }
    free(buffer);
    free(document);
    return status;
}

int main(int argc, char **argv) {
    int as_json = argc > 1 && strcmp(argv[1], "--json") == 0;
    const char *name = argc > 1 + as_json ? argv[1 + as_json] : "-";
    if (strcmp(name, "--help") == 0)
        return fputs(usage, stdout) < 0 || fflush(stdout) != 0 ? IO_FAILED : 0;
    if (argc > 2 + as_json || (name[0] == '-' && name[1] != '\0'))
        return fputs(usage, stderr), BAD_COMMAND_LINE;
    if (strcmp(name, "-") == 0) return (int)print("standard input", stdin, as_json);
    FILE *file = fopen(name, "rb");
    if (file == NULL) {
        perror(name);
        return IO_FAILED;
    }
    uint32_t status = print(name, file, as_json);
    fclose(file);
    return (int)status;
}
