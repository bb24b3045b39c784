/* session: writes what changes from one state of a document to the next, a JSON object a line.
 *
 *     session STYLE.csl ITEMS CITATIONS.json..
 *
 * ITEMS is CSL-JSON, BibTeX, BibLaTeX or RIS.
 * Each file of citations is the whole list of the document's citations after an edit. Why there is
 * no answer is told on standard error; the exit status is then that of gamhilon.h, and 1 where
 * reading or writing fails. Built at the root of the repository by
 *     cc -Iembed -o session embed/c/session.c embed/out/libgamhilon.a */
#include "gamhilon.h"

#include <stdio.h>
#include <stdlib.h>

/* Where reading or writing fails; where the words make no command. */
enum { IO_FAILED = 1, BAD_COMMAND_LINE = 64 };

typedef uint32_t asking(gamhilon_session *, uint8_t *, size_t, size_t *);

/* Where there is no memory, the process ends. */
static uint8_t *allocated(size_t length) {
    uint8_t *bytes = malloc(length);
    if (bytes == NULL) exit(GAMHILON_OUT_OF_MEMORY);
    return bytes;
}

/* The bytes of a file; where it can't be read, the process ends. */
static gamhilon_text read_file(const char *path) {
    gamhilon_text all = {NULL, 0};
    FILE *file = fopen(path, "rb");
    long length = -1;
    if (file != NULL && fseek(file, 0, SEEK_END) == 0) length = ftell(file);
    if (length >= 0 && fseek(file, 0, SEEK_SET) == 0) {
        uint8_t *bytes = allocated((size_t)length + 1);
        all.length = fread(bytes, 1, (size_t)length, file);
        all.bytes = bytes;
    }
    if (length < 0 || all.length != (size_t)length) {
        perror(path);
        exit(IO_FAILED);
    }
    fclose(file);
    return all;
}

static void free_text(gamhilon_text text) { free((void *)text.bytes); }

/* Writes a text of the session on a line. An answer that doesn't fit is kept for the next call. */
static uint32_t show(FILE *stream, asking *ask, gamhilon_session *session) {
    size_t length = 1 << 16;
    uint8_t *bytes = allocated(length);
    uint32_t status = ask(session, bytes, length, &length);
    if (status == GAMHILON_BUFFER_TOO_SMALL) {
        free(bytes);
        bytes = allocated(length);
        status = ask(session, bytes, length, &length);
    }
    if (status == GAMHILON_OK) {
        fwrite(bytes, 1, length, stream);
        putc('\n', stream);
    }
    free(bytes);
    return status;
}

int main(int argc, char **argv) {
    if (argc < 3) {
        fputs("usage: session STYLE.csl ITEMS CITATIONS.json..\n", stderr);
        return BAD_COMMAND_LINE;
    }
    gamhilon_text style = read_file(argv[1]), items = read_file(argv[2]), none = {NULL, 0};
    gamhilon_session session = GAMHILON_NO_SESSION;
    uint32_t status = gamhilon_session_open(&session, style, none, none);
    if (status == GAMHILON_OK) status = gamhilon_session_put_items(&session, items);
    for (int i = 3; i < argc && status == GAMHILON_OK; i++) {
        gamhilon_text citations = read_file(argv[i]);
        status = gamhilon_session_set_citations(&session, citations);
        free_text(citations);
        if (status == GAMHILON_OK) status = show(stdout, gamhilon_session_answer, &session);
    }
    if (status != GAMHILON_OK) {
        fprintf(stderr, "session: no answer: %s (status %u)\n", gamhilon_status_text(status),
                (unsigned)status);
        show(stderr, gamhilon_session_error, &session);
    }
    gamhilon_session_close(&session);
    free_text(style), free_text(items);
    if (fflush(stdout) != 0) return IO_FAILED;
    return (int)status;
}
