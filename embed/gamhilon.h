/* Gamhilon: citations and bibliographies, for C99 and C++17.
 *
 * gamhilon_cite takes the texts of a style file, of items and of citations (docs/WRITER.md), and
 * gamhilon_read_references reads BibTeX, BibLaTeX and RIS. The calls on documents take JSON
 * (docs/DOCUMENT.md; for the driven calls docs/DRIVEN.md). A call puts what comes of them into a
 * buffer of the caller's. Nothing stays between calls, and nothing is to be initialised or freed. A
 * session alone (gamhilon_session_open) is kept from one call to the next, and closed.
 *
 * As long as the first number of GAMHILON_VERSION stays 0, a change of its second number may change
 * calls; from 1.0.0 on the calls, the statuses and the name of the shared object stay as long as
 * the first number stays. */
#ifndef GAMHILON_H
#define GAMHILON_H

#include <stddef.h>
#include <stdint.h>

#ifdef __cplusplus
extern "C" {
#endif

/* The version of this header. gamhilon_version gives that of the library. */
#define GAMHILON_VERSION "0.3.0"
#define GAMHILON_VERSION_MAJOR 0
#define GAMHILON_VERSION_MINOR 3
#define GAMHILON_VERSION_PATCH 0

/* ---- Statuses -----------------------------------------------------------------------------------
 *
 * What a call ends with. There is no status 1: that is the program's, where reading or writing
 * fails. */

/* The call did what it was asked for. */
#define GAMHILON_OK 0u

/* The document isn't JSON, or not of the form of a document. gamhilon_find_fault finds where it is
 * wrong, and gamhilon_find_driven_fault where a driven document is. Of gamhilon_cite: a text is not
 * of its form, and gamhilon_find_cite_fault finds where. */
#define GAMHILON_DOCUMENT_REFUSED 2u

/* The macros of a style call each other in a ring. gamhilon_find_ring finds where. */
#define GAMHILON_MACRO_RING 3u

/* The citation numbers don't fit 64 bits. */
#define GAMHILON_NUMBER_OVERFLOW 4u

/* malloc or realloc refused memory. All that the call had taken is freed, and the process goes
 * on. */
#define GAMHILON_OUT_OF_MEMORY 5u

/* The text has `*needed` bytes, which is more than the buffer has. */
#define GAMHILON_BUFFER_TOO_SMALL 6u

/* The elements of a layout nest deeper than gamhilon_check_limits allows. */
#define GAMHILON_TOO_DEEP 7u

/* A layout has more elements than gamhilon_check_limits allows. */
#define GAMHILON_TOO_MANY_ELEMENTS 8u

/* 9 was a status of earlier versions, and is not used again. */

/* A style file takes more steps, or writes more, than its limits let it. gamhilon_find_cite_fault
 * gives the line, but where it does so only through what the items have. */
#define GAMHILON_LIMIT_EXCEEDED 10u

/* The session isn't open: it never was, or it is closed, or what was to open it was refused. */
#define GAMHILON_SESSION_NOT_OPEN 11u

/* A text for people that says what a status means. It has no line feed, ends with a NUL, and is
 * never freed. */
const char *gamhilon_status_text(uint32_t status);

/* ---- Answers ------------------------------------------------------------------------------------
 *
 * Each call that takes a buffer keeps to these rules.
 *
 * - At GAMHILON_OK the buffer begins with the text, which is UTF-8 and has no NUL at its end; the
 *   rest of the buffer is as it was. At every other status the whole buffer is as it was.
 * - `*needed` is the length of the text at GAMHILON_OK and at GAMHILON_BUFFER_TOO_SMALL, and else
 *   0. So a call with a buffer of length 0 asks for the length:
 *
 *       size_t needed;
 *       uint32_t status = gamhilon_render_text(document, document_length, NULL, 0, &needed);
 *       if (status == GAMHILON_BUFFER_TOO_SMALL) {
 *           uint8_t *buffer = malloc(needed);
 *           status = gamhilon_render_text(document, document_length, buffer, needed, &needed);
 *           ...
 *           free(buffer);
 *       }
 *
 *   Each call does the whole work, so a first buffer that will mostly do is better: text is rarely
 *   longer than its document; JSON is mostly four to five times as long, and rarely more than eight
 *   times.
 * - Document or texts, buffer and `needed` are the caller's before and after the call, and must not
 *   overlap. The library keeps no pointer to them. A pointer may be null where its length is 0;
 *   `needed` must not be null.
 * - Any number of threads may call at once, on buffers of their own. A call reads no file, no
 *   environment, no locale and no clock, and writes to no stream. It must not be made from a signal
 *   handler, nor in a forked child of a process with several threads before that calls exec.
 * - Memory is taken by malloc and realloc and all freed when the call returns. malloc, realloc and
 *   free have to be of one allocator, which aligns a block to each power of two up to 16 that
 *   divides its size.
 * - The stack: give a thread that calls 256 KiB, and for style files 2 MiB (below). Of the
 *   documents that the tests try the deepest take 111 KiB. JSON nests no deeper than 127, but
 *   macros that call one another deepen trees further: see gamhilon_check_limits. Running out of
 *   stack ends the process, as everywhere in C.
 * - The processor has to be an x86-64 of level v2 (SSE4.2 and POPCNT: those made since 2009) or
 *   above.
 *
 * What each call does with document, buffer, `needed` and `ring` is proved for callers that keep to
 * these rules (crates/gamhilon_c). The C compiler and malloc are trusted; gamhilon_version and
 * gamhilon_status_text are plain C. */

/* Renders the document as text: a line for each citation and then, where the style has a
 * bibliography, an empty line and a line for each of its items.
 *
 * Ends with GAMHILON_OK, GAMHILON_DOCUMENT_REFUSED, GAMHILON_MACRO_RING, GAMHILON_NUMBER_OVERFLOW,
 * GAMHILON_OUT_OF_MEMORY or GAMHILON_BUFFER_TOO_SMALL. */
uint32_t gamhilon_render_text(const uint8_t *document, size_t document_length,
                              uint8_t *buffer, size_t buffer_length, size_t *needed);

/* Renders the document as JSON (docs/ANSWER.md), with formatting, links, keys, note numbers and
 * settings.
 *
 * Ends with the statuses of gamhilon_render_text. */
uint32_t gamhilon_render_json(const uint8_t *document, size_t document_length,
                              uint8_t *buffer, size_t buffer_length, size_t *needed);

/* ---- Style files --------------------------------------------------------------------------------
 *
 * The calls on style files, references and sessions take texts. */

/* A text in UTF-8. `bytes` may be null where `length` is 0, so {NULL, 0} is an empty text. A call
 * keeps no pointer to it. */
typedef struct {
    const uint8_t *bytes;
    size_t length;
} gamhilon_text;

/* gamhilon_cite and gamhilon_find_cite_fault take five texts, of which no file is opened:
 *
 * - `style`: a style file of CSL 1.0.2 that stands for itself. One that stands for another style is
 *   refused, and gamhilon_find_cite_fault gives the link to that one.
 * - `locales`: a JSON list of the texts of locale files. Words are looked for in those of the
 *   dialect, of the language's primary dialect and of American English (en-US), which is built in;
 *   the others aren't used. An empty text is an empty list.
 * - `items`: CSL-JSON (docs/REFERENCES.md), BibTeX, BibLaTeX or RIS (docs/GUIDES/REFERENCES.md).
 * - `citations`: a JSON list of citations, each a list of cites, or an object with these as
 *   `citationItems`, and maybe `citationID` and `properties` with `noteIndex` and `unsorted`. A
 *   cite is an object with `id`, and maybe `locator`, `label`, `prefix`, `suffix`,
 *   `suppress-author`, `author-only`, `hidden` and `note` (docs/WRITER.md).
 * - `options`: a JSON object of `locale`, a language tag that stands in place of the style's;
 *   `nocite`: where it is true, items that aren't cited are listed too; `abbreviations`, short
 *   forms of texts (docs/STYLE_FILES.md); `limits`, an object of `steps` and `bytes` ("Documents
 *   from others", below); `draft`: where it is true, a cite of an item that isn't there is its id
 *   in bold letters, and an item with a fault is left out, each with a warning; `from`, the form of
 *   the items: `csl-json`, `bibtex`, `biblatex` or `ris`, or else the form that their text begins
 *   as; and `form`: `text`, `html`, `markdown`, `latex`, or `json`, which is the usual one. Other
 *   keys are refused. An empty text is an empty object.
 *
 * Answers may be longer than the texts: a first buffer of 64 KiB and eight times the length of
 * items and citations together will mostly do.
 *
 * Give a thread that calls 2 MiB of stack. Of 300 published styles the deepest take 111 KiB. Style
 * files that nest as deep as is read (256 elements, or 1,000 macros that call one another) are
 * tried in these 2 MiB. */

/* Writes the citations and the bibliography, as JSON (docs/ANSWER.md). In a style of notes each
 * citation has the number of its note. Quotes have their marks as text. Of what an element was
 * written for (`meta`) only cites are named: each by its place in the citation that was handed in.
 *
 * In another form the text has a line for each citation and then, where the style has a
 * bibliography, an empty line and a line for each of its items. No text has a line feed in it.
 *
 * Ends with GAMHILON_OK, GAMHILON_DOCUMENT_REFUSED, GAMHILON_NUMBER_OVERFLOW,
 * GAMHILON_OUT_OF_MEMORY, GAMHILON_BUFFER_TOO_SMALL or GAMHILON_LIMIT_EXCEEDED. That the text
 * stands in the buffer is proved, and not which text it is. */
uint32_t gamhilon_cite(gamhilon_text style, gamhilon_text locales, gamhilon_text items,
                       gamhilon_text citations, gamhilon_text options, uint8_t *buffer,
                       size_t buffer_length, size_t *needed);

/* Finds what is wrong and odd in the texts: puts a JSON object into the buffer, as
 *
 *     {"fault":{"column":3,"file":"style","line":7,"message":".."},"faults":[..],"warnings":[]}
 *     {"warnings":[{"file":"items","message":"unknown key, left out; is it `title`?",
 *         "pointer":"/0/titel"}]}
 *
 * `fault` is there where gamhilon_cite ends with GAMHILON_DOCUMENT_REFUSED, and is the first thing
 * that is wrong; texts are read in the order options, style, locales, items, citations. It is there
 * also where the style exceeds its limits whatever the items have: then it names the macro, the
 * citation or the bibliography by its line, and gamhilon_cite ends with GAMHILON_LIMIT_EXCEEDED.
 * `faults` is there where the style is no style by what stands at a line: the list of all that is
 * wrong with it, 20 at most, in the order of their places.
 * `warnings` is the list of what is read otherwise than it stands in the texts, up to the fault;
 * where there is none, the list has all.
 *
 * `file` is the text: `style`, `locales`, `locales/0` for the first of the locale files, `items`,
 * `citations` or `options`. The place in it is a `line` and a `column`, both from 1, or the JSON
 * Pointer `pointer` (RFC 6901); neither where the whole text is meant. `message` is for people. A
 * style file that stands for another one has the link to that as `parent`, and maybe as
 * `parent_locale` the language to be asked for by the option `locale`.
 *
 * Of items in another form than CSL-JSON, what can't be read has its line and its column, and what
 * is lost of an entry the key of that as `entry` and the field as `field`:
 *
 *     {"entry":"doe99","field":"series","file":"items","message":".."}
 *
 * It writes no citation, and takes far less time than gamhilon_cite. Ends with GAMHILON_OK,
 * GAMHILON_OUT_OF_MEMORY or GAMHILON_BUFFER_TOO_SMALL. */
uint32_t gamhilon_find_cite_fault(gamhilon_text style, gamhilon_text locales, gamhilon_text items,
                                  gamhilon_text citations, gamhilon_text options, uint8_t *buffer,
                                  size_t buffer_length, size_t *needed);

/* Reads references in any of the forms that gamhilon_cite takes as `items`: puts a JSON object into
 * the buffer, as
 *
 *     {"items":[{"id":"doe99","type":"book","title":"On order"}],
 *         "warnings":[{"entry":"doe99","field":"series","file":"items","message":".."}]}
 *     {"fault":{"column":3,"file":"items","line":7,"message":".."},"warnings":[]}
 *
 * `items` is the list of items in CSL-JSON, for gamhilon_cite or for other programs. `warnings`
 * says what was lost of them, and what can't be read; `fault` is there in place of `items` where
 * the text isn't of its form, or the options are wrong: both as gamhilon_find_cite_fault has them.
 * Of the options of gamhilon_cite, `from` and `locale` count: entries that say no language have
 * that of `locale`, or else American English. Items of CSL-JSON are handed out as they are. Where
 * the option `entries` is true, there are also the entries of BibTeX, as they stand in the text:
 *
 *     {"entries":[{"fields":{"title":"On Order"},"key":"doe99","type":"book"}],"items":[..], ..}
 *
 * The JSON is rarely longer than twice the references. Ends with GAMHILON_OK,
 * GAMHILON_OUT_OF_MEMORY or GAMHILON_BUFFER_TOO_SMALL. */
uint32_t gamhilon_read_references(gamhilon_text references, gamhilon_text options, uint8_t *buffer,
                                  size_t buffer_length, size_t *needed);

/* ---- Sessions -----------------------------------------------------------------------------------
 *
 * A document that is edited, and asked for again at each change (docs/GUIDES/SESSIONS.md). A
 * session owns a style, items and citations. Each answer has what changed since the one before, and
 * what didn't change isn't written again.
 *
 *     gamhilon_session session = GAMHILON_NO_SESSION;
 *     gamhilon_text none = {NULL, 0};
 *     uint32_t status = gamhilon_session_open(&session, style, none, none);
 *     if (status == GAMHILON_OK) status = gamhilon_session_put_items(&session, items);
 *     ...
 *     status = gamhilon_session_set_citations(&session, citations);
 *     if (status == GAMHILON_OK)
 *         status = gamhilon_session_answer(&session, buffer, buffer_length, &needed);
 *     ...
 *     gamhilon_session_close(&session);
 *
 * embed/c/session.c is a whole program.
 *
 * - A gamhilon_session begins as GAMHILON_NO_SESSION. Only these calls change it. It may be moved
 *   in memory between calls, but of two copies only one may be used from then on.
 * - One session is used by one thread at a time, and stays on the thread that opened it. Any number
 *   of sessions may be used at once, each by a thread of its own.
 * - A call that ends with another status than GAMHILON_OK leaves the session as it was: its style,
 *   its items, its citations, and what the last answer had. That is tested, with each growth of
 *   memory refused in turn. After GAMHILON_OUT_OF_MEMORY the call may be made again.
 * - The texts are those of gamhilon_cite, and aren't needed after the call. Memory is taken by
 *   malloc and realloc; gamhilon_session_close frees it all. Between calls a session has its texts
 *   as values, what it wrote for the last answers, and the last answer.
 * - What "Answers" above says of buffers holds here too. An answer that doesn't fit isn't written
 *   again: the session keeps it, and the next gamhilon_session_answer gives it, whatever was edited
 *   in between; what those edits change is in the answer after that.
 * - Give a thread that calls 2 MiB of stack, as for gamhilon_cite. */

/* A session, or none. What is in it is the library's. */
typedef struct {
    void *held;
} gamhilon_session;

/* No session: what a gamhilon_session begins with, and what it is once it is closed. */
#define GAMHILON_NO_SESSION {NULL}

/* Opens a session in a style, with no items and no citations, in place of the one that is open, if
 * any. The options are those of gamhilon_cite, but that the usual `form` is `text`.
 *
 * Ends with GAMHILON_OK, GAMHILON_DOCUMENT_REFUSED, GAMHILON_LIMIT_EXCEEDED or
 * GAMHILON_OUT_OF_MEMORY. gamhilon_session_error says what is wrong; close the session then too. */
uint32_t gamhilon_session_open(gamhilon_session *session, gamhilon_text style,
                               gamhilon_text locales, gamhilon_text options);

/* From now on the document is written in another style, with its own locales and options.
 *
 * Ends with the statuses of gamhilon_session_open, or with GAMHILON_SESSION_NOT_OPEN. */
uint32_t gamhilon_session_set_style(gamhilon_session *session, gamhilon_text style,
                                    gamhilon_text locales, gamhilon_text options);

/* Puts items, in any of the forms that gamhilon_cite takes: each is new, or stands in place of the
 * one with its id. The option `from` of the session's style names their form, where it is there.
 *
 * Ends with GAMHILON_OK, GAMHILON_DOCUMENT_REFUSED, GAMHILON_OUT_OF_MEMORY or
 * GAMHILON_SESSION_NOT_OPEN. */
uint32_t gamhilon_session_put_items(gamhilon_session *session, gamhilon_text items);

/* Removes the items of these ids, which are a JSON list of texts or numbers. Ids that no item has
 * are ignored.
 *
 * Ends with the statuses of gamhilon_session_put_items. */
uint32_t gamhilon_session_remove_items(gamhilon_session *session, gamhilon_text ids);

/* Puts these citations in place of all others: always the whole list, as gamhilon_cite has it. The
 * key of a citation is its `citationID`, or else its place in the list, from 0. Two citations with
 * one key are refused.
 *
 * Ends with the statuses of gamhilon_session_put_items. */
uint32_t gamhilon_session_set_citations(gamhilon_session *session, gamhilon_text citations);

/* Puts what changed since the last answer into the buffer, as JSON; at the first answer that is
 * all:
 *
 *     {"bibliography":{"changed":[{"id":"doe","text":".."}],"gone":[],"ids":["doe"]},
 *      "citations":{"changed":[{"key":"a","text":"(Doe 1999)"}],"gone":[],"keys":["a"]}}
 *
 * `bibliography` is there where the style has one; `keys` and `ids` where they, or their order, are
 * others than last time. In the form `json`, `citation` and `item` stand in place of `text`, as
 * docs/ANSWER.md has them, and `bibliography` says how items are laid out.
 *
 * Ends with GAMHILON_OK, GAMHILON_DOCUMENT_REFUSED, GAMHILON_NUMBER_OVERFLOW,
 * GAMHILON_OUT_OF_MEMORY, GAMHILON_BUFFER_TOO_SMALL, GAMHILON_LIMIT_EXCEEDED or
 * GAMHILON_SESSION_NOT_OPEN. */
uint32_t gamhilon_session_answer(gamhilon_session *session, uint8_t *buffer, size_t buffer_length,
                                 size_t *needed);

/* Puts all citations and items into the buffer, in the form of a first answer. The next
 * gamhilon_session_answer has what changed since.
 *
 * Ends with the statuses of gamhilon_session_answer. */
uint32_t gamhilon_session_whole(gamhilon_session *session, uint8_t *buffer, size_t buffer_length,
                                size_t *needed);

/* Puts what was read otherwise than it stands in the texts into the buffer, as the `warnings` of
 * gamhilon_find_cite_fault; in a draft also the cites of items that aren't there.
 *
 * Ends with GAMHILON_OK, GAMHILON_OUT_OF_MEMORY, GAMHILON_BUFFER_TOO_SMALL or
 * GAMHILON_SESSION_NOT_OPEN. */
uint32_t gamhilon_session_warnings(gamhilon_session *session, uint8_t *buffer,
                                   size_t buffer_length, size_t *needed);

/* Puts a text for people into the buffer, which says what was wrong with the last call that was
 * refused, as `citations: /0/0/id: there is no item `doe``. It is empty where nothing was.
 *
 * Ends with the statuses of gamhilon_session_warnings. */
uint32_t gamhilon_session_error(gamhilon_session *session, uint8_t *buffer, size_t buffer_length,
                                size_t *needed);

/* Closes the session, and frees what it has. Where none is open, it does nothing. */
void gamhilon_session_close(gamhilon_session *session);

/* ---- Documents from others ----------------------------------------------------------------------
 *
 * Style files have limits of their own, so gamhilon_cite may be given one of anybody. Each element
 * that is entered is a step, and so are each test of a condition and each part of a date; a name
 * takes four. What the style writes, affixes, delimiters and words, is counted in bytes before it
 * is written, and so are the fields of items. A document has `steps` steps and `bytes` bytes
 * (5,000 and 100,000, where `options` has no `limits`) for each cite and once more for each item
 * that is cited, and forty times as many beside; an item counts once more for each 128 names and
 * each 20,000 bytes of text that it has. One cite, one item or one key of sorting may take twice
 * that part, and the programs of the style may have forty times as many steps. Where less is left
 * than a step takes, the call ends with GAMHILON_LIMIT_EXCEEDED before that step is taken.
 *
 * No published style comes near: of 2,548 the dearest way through a layout takes 1,400 steps and
 * 11 KB. Lower limits keep time and memory lower in proportion.
 *
 * The rest of this section is about documents. */

/* Checks that each layout of each style of the document is within limits: that its elements nest
 * no deeper than `depth`, and are no more than `elements`. It renders nothing, and stops at the
 * first element that is too deep or too many.
 *
 * Macros make much work of a small document: a chain of them takes more stack the longer it is, and
 * 24 macros that each call the next one twice and write, in 3 KB, would take gigabytes. The other
 * calls have no limits of their own. So ask this first of a document that comes from others:
 *
 *     uint32_t status = gamhilon_check_limits(document, document_length, 100, 100000);
 *     if (status == GAMHILON_OK) {
 *         status = gamhilon_render_text(document, document_length, buffer, buffer_length, &needed);
 *     }
 *
 * Within a depth of 100 all calls keep to 256 KiB of stack on the documents that the tests try, and
 * this call on those that it refuses too. Limit the length of documents as well: each cite may
 * write all elements of its layout, and each element a long text.
 *
 * An element in a group, in a branch of a choice or in the children of a macro stands one deeper
 * than the group, the choice or the call of the macro. So an empty layout is within a depth of 0,
 * and within a depth of 1 no element stands in another. Each element counts: those of all branches
 * of a choice, each call of a macro, and at each call all that the macro's children hold. A style
 * whose macros call each other in a ring is let through, as no answer comes of it.
 *
 * Ends with GAMHILON_OK, GAMHILON_TOO_DEEP, GAMHILON_TOO_MANY_ELEMENTS or GAMHILON_OUT_OF_MEMORY;
 * and with GAMHILON_DOCUMENT_REFUSED where the document isn't JSON, has a key that no document has,
 * or a style that isn't of its form. The rest of it isn't read. */
uint32_t gamhilon_check_limits(const uint8_t *document, size_t document_length, size_t depth,
                               size_t elements);

/* ---- What is wrong with a document ----------------------------------------------------------- */

/* Finds where the document is wrong: puts its first fault into the buffer, as a JSON object of
 * three texts, as
 *
 *     {"found":"a number","pointer":"/entries/0/author/1/1","wanted":"a text"}
 *
 * `pointer` is a JSON Pointer (RFC 6901) to the part of the document, `found` what stands there,
 * and `wanted` what is asked for there (docs/DOCUMENT.md, "Where a document is wrong"). A document
 * that isn't refused has no fault: then `*needed` is 0. It reads the document, and renders nothing.
 *
 * Ends with GAMHILON_OK, GAMHILON_OUT_OF_MEMORY or GAMHILON_BUFFER_TOO_SMALL. */
uint32_t gamhilon_find_fault(const uint8_t *document, size_t document_length,
                             uint8_t *buffer, size_t buffer_length, size_t *needed);

/* Where the first ring of macros is. */
typedef struct {
    size_t of_bibliography; /* 1 where the style is that of the bibliography, and else 0 */
    size_t request;         /* the index of the request whose style it is, from 0; 0 for the
                               bibliography's */
    size_t macro_index;     /* the index of the first macro on a ring, among the macros of its
                               style, from 0 */
} gamhilon_ring_location;

/* Finds the first ring of macros. At GAMHILON_MACRO_RING `*ring` is its place, and at every other
 * status it is as it was. `ring` must not be null.
 *
 * Ends with the statuses of gamhilon_render_text, but never with GAMHILON_BUFFER_TOO_SMALL. */
uint32_t gamhilon_find_ring(const uint8_t *document, size_t document_length,
                            gamhilon_ring_location *ring);

/* ---- Hosts that write cites themselves ------------------------------------------------------- */

/* For a host that writes cites itself, such as a reference manager with a CSL processor. It hands
 * in a driven document (docs/DRIVEN.md), which has no layouts. Puts what comes of it into the
 * buffer, as JSON: where the host has written all that is asked for, the answer, and else what is
 * missing, of which there is something, each task once:
 *
 *     {"answer":{"citations":[..],"bibliography":{..}}}
 *     {"missing":[{"entry":"darwin","first":true,"kind":"cite","locale":"en-US",
 *         "number":0,"style":"apa"},..]}
 *
 * The host starts with a document that has nothing under `written`, writes each task that is
 * missing, adds it there and calls again, until an answer comes:
 *
 *     status = gamhilon_drive(document, document_length, buffer, buffer_length, &needed);
 *     while (status == GAMHILON_OK && memcmp(buffer, "{\"missing\":", 11) == 0) {
 *         ... (write each task, and add it to the document)
 *         status = gamhilon_drive(document, document_length, buffer, buffer_length, &needed);
 *     }
 *
 * What is missing now may depend on what was written before, so that takes three calls or a few
 * more (docs/DRIVEN.md, "The loop").
 *
 * Ends with the statuses of gamhilon_render_text but GAMHILON_MACRO_RING, since a driven style has
 * no macros (this alone isn't proved). */
uint32_t gamhilon_drive(const uint8_t *document, size_t document_length,
                        uint8_t *buffer, size_t buffer_length, size_t *needed);

/* Finds where a driven document is wrong, as gamhilon_find_fault does for other documents. */
uint32_t gamhilon_find_driven_fault(const uint8_t *document, size_t document_length,
                                    uint8_t *buffer, size_t buffer_length, size_t *needed);

/* ---- The library ----------------------------------------------------------------------------- */

/* The version of the library, and the commit and the toolchain that it was proved and built by,
 * where those are known: a text that begins with its GAMHILON_VERSION, ends with a NUL, and is
 * never freed. */
const char *gamhilon_version(void);

#ifdef __cplusplus
}
#endif

#endif
