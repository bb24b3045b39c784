/* failing FILE.., failing --texts FOLDER..: each allocation of a call refused in turn, and each refused with all that come after
 * it; of a document both texts, the fault, the place of a ring, the limits, and a driven document and its fault; of the texts in a
 * folder the answer, what is wrong and odd, and the items. Linked with --wrap=malloc,--wrap=realloc,--wrap=free. It fails too where there is
 * no file, or a call without an allocation. */
#include "texts.h"

#include <string.h>

void *__real_malloc(size_t);
void *__real_realloc(void *, size_t);
void __real_free(void *);
void *__wrap_malloc(size_t);
void *__wrap_realloc(void *, size_t);
void __wrap_free(void *);

static long left = -1, made, open_blocks;
static int and_all_after;

static int is_refused(void) {
    made++;
    if (left < 0) return 0;
    if (left > 0) return left--, 0;
    if (!and_all_after) left = -1;
    return 1;
}

void *__wrap_malloc(size_t n) {
    if (is_refused()) return NULL;
    open_blocks++;
    return __real_malloc(n);
}

void *__wrap_realloc(void *p, size_t n) {
    if (is_refused()) return NULL;
    if (p == NULL) open_blocks++;
    return __real_realloc(p, n);
}

void __wrap_free(void *p) {
    if (p != NULL) open_blocks--;
    __real_free(p);
}

enum { BUFFER_LENGTH = 1 << 22, DOCUMENT_FORMS = 7, FORMS = DOCUMENT_FORMS + TEXT_CALLS };

static uint8_t document[BUFFER_LENGTH], buffer[BUFFER_LENGTH], answer[BUFFER_LENGTH];
static size_t n;
static gamhilon_text texts[TEXTS];
static gamhilon_ring_location ring;

static uint32_t called(int form, uint8_t *into, size_t *length) {
    ring.macro_index = 77;
    *length = 0;
    if (form == 0) return gamhilon_render_text(document, n, into, BUFFER_LENGTH, length);
    if (form == 1) return gamhilon_render_json(document, n, into, BUFFER_LENGTH, length);
    if (form == 2) return gamhilon_find_fault(document, n, into, BUFFER_LENGTH, length);
    if (form == 3) return gamhilon_find_ring(document, n, &ring);
    if (form == 4) return gamhilon_check_limits(document, n, 100, 100000);
    if (form == 5) return gamhilon_drive(document, n, into, BUFFER_LENGTH, length);
    if (form == 6) return gamhilon_find_driven_fault(document, n, into, BUFFER_LENGTH, length);
    return text_calls[form - DOCUMENT_FORMS](texts, into, BUFFER_LENGTH, length);
}

/* Whether a call of which some allocation was refused is right: refused itself, or the answer all the same. */
static int is_right(uint32_t status, size_t length, uint32_t whole_status, size_t whole_length) {
    if (open_blocks != 0) return 0;
    if (status == GAMHILON_OUT_OF_MEMORY) return length == 0 && buffer[0] == 7 && buffer[99] == 7 && ring.macro_index == 77;
    return status == whole_status && length == whole_length && memcmp(buffer, answer, whole_length) == 0;
}

/* Reads a document; 0 where there is none. */
static int is_read(const char *path) {
    FILE *file = fopen(path, "rb");
    if (file == NULL) return 0;
    n = fread(document, 1, sizeof document, file);
    fclose(file);
    return n != 0;
}

/* Refuses each allocation of a call; gives whether something of it was wrong. */
static int is_wrong(const char *path, int form) {
    size_t whole_length, length;
    left = -1, made = open_blocks = 0;
    uint32_t whole_status = called(form, answer, &whole_length);
    long count = made, refused = 0, leaked = open_blocks, bad = leaked != 0;
    for (and_all_after = 0; and_all_after < 2; and_all_after++)
        for (long k = 0; k < count; k++) {
            memset(buffer, 7, 100);
            left = k, open_blocks = 0;
            uint32_t status = called(form, buffer, &length);
            left = -1;
            refused += status == GAMHILON_OUT_OF_MEMORY;
            bad += !is_right(status, length, whole_status, whole_length);
        }
    printf("%s: form %d, status %u, %ld allocations, %ld of %ld calls out of memory, %ld wrong\n", path, form,
           (unsigned)whole_status, count, refused, 2 * count, bad);
    return bad != 0 || count == 0 || refused < count;
}

int main(int argc, char **argv) {
    int of_texts = argc > 1 && strcmp(argv[1], "--texts") == 0, wrong = argc < 2 + of_texts;
    for (int i = 1 + of_texts; i < argc; i++) {
        if (of_texts) read_texts(argv[i], texts);
        if (of_texts ? texts[0].length == 0 : !is_read(argv[i])) return printf("%s: there is no document, wrong\n", argv[i]), 1;
        for (int form = of_texts ? DOCUMENT_FORMS : 0; form < (of_texts ? FORMS : DOCUMENT_FORMS); form++)
            wrong |= is_wrong(argv[i], form);
        if (of_texts) free_texts(texts);
    }
    return wrong;
}
