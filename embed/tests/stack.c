/* stack FILE.., stack --texts FOLDER..: how much stack the deepest call takes: of both forms of a document, of the fault, of the
 * place of a ring, of the limits, and of a driven document and its fault; or of the texts in a folder, of what is wrong in them,
 * and of their items. That is the mark that it leaves in a stack that was filled before. Writes a line for each form: the bytes and the
 * document. */
#include "texts.h"

#include <pthread.h>
#include <string.h>

enum { STACK = 4 << 20, BUFFER_LENGTH = 1 << 22, DOCUMENT_FORMS = 7, FORMS = DOCUMENT_FORMS + TEXT_CALLS };

static uint8_t document[BUFFER_LENGTH], buffer[BUFFER_LENGTH], *stack;
static size_t n;
static gamhilon_text texts[TEXTS];
static int form;

static void *worker(void *unused) {
    size_t length;
    gamhilon_ring_location ring;
    if (form == 0) gamhilon_render_text(document, n, buffer, BUFFER_LENGTH, &length);
    else if (form == 1) gamhilon_render_json(document, n, buffer, BUFFER_LENGTH, &length);
    else if (form == 2) gamhilon_find_fault(document, n, buffer, BUFFER_LENGTH, &length);
    else if (form == 3) gamhilon_find_ring(document, n, &ring);
    else if (form == 4) gamhilon_check_limits(document, n, 100, 100000);
    else if (form == 5) gamhilon_drive(document, n, buffer, BUFFER_LENGTH, &length);
    else if (form == 6) gamhilon_find_driven_fault(document, n, buffer, BUFFER_LENGTH, &length);
    else text_calls[form - DOCUMENT_FORMS](texts, buffer, BUFFER_LENGTH, &length);
    return unused;
}

/* What a thread takes for the call. The pages that it touched are filled again for the next. */
static size_t taken(void) {
    pthread_t thread;
    pthread_attr_t how;
    size_t mark = 0;
    pthread_attr_init(&how);
    pthread_attr_setstack(&how, stack, STACK);
    pthread_create(&thread, &how, worker, NULL);
    pthread_join(thread, NULL);
    while (mark < STACK && stack[mark] == 0xA5) mark++;
    memset(stack + mark, 0xA5, STACK - mark);
    return STACK - mark;
}

static void read_document(const char *path) {
    FILE *file = fopen(path, "rb");
    n = fread(document, 1, sizeof document, file);
    fclose(file);
}

int main(int argc, char **argv) {
    static const char *const forms[FORMS] = {"text", "json", "fault", "ring", "limits", "drive", "drive_fault", "cite", "cite_fault",
                                              "references"};
    size_t most[FORMS] = {0};
    int of[FORMS] = {0}, of_texts = argc > 1 && strcmp(argv[1], "--texts") == 0;
    int first = of_texts ? DOCUMENT_FORMS : 0, end = of_texts ? FORMS : DOCUMENT_FORMS;
    if (posix_memalign((void **)&stack, 4096, STACK) != 0) return 1;
    memset(stack, 0xA5, STACK);
    for (int i = 1 + of_texts; i < argc; i++) {
        if (of_texts) read_texts(argv[i], texts);
        else read_document(argv[i]);
        for (form = first; form < end; form++) {
            size_t bytes = taken();
            if (bytes > most[form]) most[form] = bytes, of[form] = i;
        }
        if (of_texts) free_texts(texts);
    }
    for (form = first; form < end; form++) printf("%s %zu %s\n", forms[form], most[form], of[form] > 0 ? argv[of[form]] : "");
    return 0;
}
