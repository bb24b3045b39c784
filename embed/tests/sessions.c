/* sessions LENGTH FOLDER: edits a document, whose first state are the texts of a folder, and asks for what changed, in a buffer of
 * LENGTH bytes, and where that is too small in one that fits. Holds each call to what gamhilon.h says of the buffer and of the
 * length. Writes of each text a line "STATUS LENGTH", and the text.
 *
 * sessions --refuse FOLDER: the same with each allocation refused in turn, and each refused with all that come after it for a
 * while; a call that is refused for memory is made again. The texts are those of the calls that were refused nothing, and closing
 * frees all.
 *
 * sessions --threads FOLDER: the same in eight threads, each with sessions of its own.
 *
 * Linked with --wrap=malloc,--wrap=realloc,--wrap=free. */
#define WITHOUT_CALLS
#include "texts.h"

#include <pthread.h>
#include <string.h>

void *__real_malloc(size_t);
void *__real_realloc(void *, size_t);
void __real_free(void *);
void *__wrap_malloc(size_t);
void *__wrap_realloc(void *, size_t);
void __wrap_free(void *);

enum { GUARD = 64, MOST = 1 << 16, THREADS = 8, ROUNDS = 40, WHILE = 3 };

static _Thread_local long left = -1, made, open_blocks, refusals;
static _Thread_local int and_after;
static int failed;

static int is_refused(void) {
    made++;
    if (left < 0) return 0;
    if (left > 0) return left--, 0;
    refusals++;
    if (--and_after <= 0) left = -1;
    return 1;
}

void *__wrap_malloc(size_t n) {
    if (is_refused()) return NULL;
    open_blocks++;
    return __real_malloc(n);
}

void *__wrap_realloc(void *p, size_t n) {
    if (is_refused()) return NULL;
    if (p == NULL) open_blocks++;
    return __real_realloc(p, n);
}

void __wrap_free(void *p) {
    if (p != NULL) open_blocks--;
    __real_free(p);
}

typedef uint32_t asking(gamhilon_session *, uint8_t *, size_t, size_t *);

/* What was written of a document: a line for each text. */
typedef struct {
    uint8_t bytes[MOST];
    size_t length, given_buffer;
} record;

static void hold(int holds, const char *what) {
    if (!holds) {
        fprintf(stderr, "sessions: %s\n", what);
        failed = 1;
    }
}

static int is_filled(const uint8_t *bytes, size_t length) {
    for (size_t i = 0; i < length; i++)
        if (bytes[i] != 0xA5) return 0;
    return 1;
}

/* One call for a text, in a buffer with a guard behind it, all filled before. */
static uint32_t tried(asking *ask, gamhilon_session *session, uint8_t *buffer, size_t buffer_length, size_t *length) {
    memset(buffer, 0xA5, buffer_length + GUARD);
    *length = 12345;
    uint32_t status = ask(session, buffer, buffer_length, length);
    hold(is_filled(buffer + buffer_length, GUARD), "bytes behind the buffer changed");
    if (status == GAMHILON_OK) {
        hold(*length <= buffer_length, "the answer is longer than its buffer");
        hold(is_filled(buffer + *length, buffer_length - *length), "the rest of the buffer changed");
    } else {
        hold(is_filled(buffer, buffer_length), "the buffer changed though there is no answer");
        hold(status == GAMHILON_BUFFER_TOO_SMALL ? *length > buffer_length : *length == 0, "the length is wrong");
    }
    return status;
}

/* Asks until memory isn't refused and the buffer is as long, and notes what there is. */
static void note(record *all, asking *ask, gamhilon_session *session) {
    static _Thread_local uint8_t buffer[MOST + GUARD];
    size_t length, buffer_length = all->given_buffer;
    uint32_t status;
    while ((status = tried(ask, session, buffer, buffer_length, &length)) == GAMHILON_OUT_OF_MEMORY
           || status == GAMHILON_BUFFER_TOO_SMALL)
        if (status == GAMHILON_BUFFER_TOO_SMALL) buffer_length = length;
    int head = snprintf((char *)all->bytes + all->length, 64, "%u %zu\n", (unsigned)status, length);
    all->length += (size_t)head;
    if (status == GAMHILON_OK) memcpy(all->bytes + all->length, buffer, length), all->length += length;
}

/* Notes the status of an edit, which is made again where memory is refused. */
#define EDIT(all, call)                                                                                                        \
    do {                                                                                                                       \
        uint32_t status;                                                                                                       \
        while ((status = (call)) == GAMHILON_OUT_OF_MEMORY) {}                                                                 \
        (all)->length += (size_t)snprintf((char *)(all)->bytes + (all)->length, 64, "%u 0\n", (unsigned)status);               \
    } while (0)

#define TEXT(literal) ((gamhilon_text){(const uint8_t *)(literal), sizeof(literal) - 1})

/* A document is edited. */
static void edited(record *all, const gamhilon_text *texts) {
    gamhilon_session session = GAMHILON_NO_SESSION;
    gamhilon_text none = {NULL, 0}, style = texts[0], locales = texts[1], items = texts[2], citations = texts[3], options = texts[4];
    EDIT(all, gamhilon_session_put_items(&session, items));
    note(all, gamhilon_session_answer, &session);
    gamhilon_session_close(&session);
    EDIT(all, gamhilon_session_open(&session, TEXT("<style/>"), none, none));
    EDIT(all, gamhilon_session_set_citations(&session, citations));
    note(all, gamhilon_session_error, &session);
    EDIT(all, gamhilon_session_open(&session, style, locales, options));
    EDIT(all, gamhilon_session_put_items(&session, items));
    EDIT(all, gamhilon_session_set_citations(&session, citations));
    note(all, gamhilon_session_answer, &session);
    note(all, gamhilon_session_answer, &session);
    EDIT(all, gamhilon_session_set_citations(&session, TEXT("[{\"citationID\": \"z\", \"citationItems\": [{\"id\": \"no\"}]}]")));
    note(all, gamhilon_session_answer, &session);
    note(all, gamhilon_session_error, &session);
    EDIT(all, gamhilon_session_set_citations(&session, TEXT("[]")));
    EDIT(all, gamhilon_session_remove_items(&session, TEXT("[\"no\"]")));
    note(all, gamhilon_session_answer, &session);
    EDIT(all, gamhilon_session_set_style(&session, style, locales, none));
    EDIT(all, gamhilon_session_set_citations(&session, citations));
    note(all, gamhilon_session_whole, &session);
    note(all, gamhilon_session_warnings, &session);
    gamhilon_session_close(&session);
    hold(session.held == NULL, "a session that is closed is none");
    gamhilon_session_close(&session);
}

static int is_same(const record *one, const record *other) {
    return one->length == other->length && memcmp(one->bytes, other->bytes, one->length) == 0;
}

/* Each allocation refused in turn; gives how many were. */
static long refused_in_turn(const record *whole, const gamhilon_text *texts, int in_a_row) {
    static record tried_record;
    long count = 0;
    for (long k = 0;; k++) {
        tried_record.length = 0, tried_record.given_buffer = whole->given_buffer;
        left = k, and_after = in_a_row, refusals = 0;
        long before = open_blocks;
        edited(&tried_record, texts);
        left = -1;
        hold(open_blocks == before, "closing doesn't free all");
        hold(is_same(&tried_record, whole), "another answer where memory was refused");
        if (refusals == 0) return count;
        count += refusals;
    }
}

static gamhilon_text given[TEXTS];
static record whole_record;

static void *in_a_thread(void *own) {
    record *all = own;
    for (int round = 0; round < ROUNDS; round++) {
        all->length = 0, all->given_buffer = round % 2 ? MOST : 1;
        edited(all, given);
        hold(is_same(all, &whole_record), "another answer in a thread");
    }
    return NULL;
}

static void in_threads(void) {
    static record own[THREADS];
    pthread_t threads[THREADS];
    for (int i = 0; i < THREADS; i++) hold(pthread_create(&threads[i], NULL, in_a_thread, &own[i]) == 0, "no thread");
    for (int i = 0; i < THREADS; i++) pthread_join(threads[i], NULL);
}

int main(int argc, char **argv) {
    if (argc != 3) return 2;
    read_texts(argv[2], given);
    hold(given[0].length > 0, "there is no style");
    int refuses = strcmp(argv[1], "--refuse") == 0, has_threads = strcmp(argv[1], "--threads") == 0;
    whole_record.given_buffer = refuses || has_threads ? MOST : strtoul(argv[1], NULL, 10);
    edited(&whole_record, given);
    if (refuses) {
        long once = refused_in_turn(&whole_record, given, 1), more = refused_in_turn(&whole_record, given, WHILE);
        printf("%ld growths of memory were refused\n", once + more);
        hold(once > 0 && more > once, "no growth was refused");
    } else if (has_threads) {
        in_threads();
    } else {
        fwrite(whole_record.bytes, 1, whole_record.length, stdout);
    }
    free_texts(given);
    return failed;
}
