/* What the library says of itself. build.py compiles it, and gives GAMHILON_ABOUT: the commit and
 * the toolchain. */
#include "gamhilon.h"

#ifndef GAMHILON_ABOUT
#define GAMHILON_ABOUT ""
#endif

const char *gamhilon_version(void) {
    return sizeof GAMHILON_ABOUT > 1 ? GAMHILON_VERSION " (" GAMHILON_ABOUT ")" : GAMHILON_VERSION;
}

const char *gamhilon_status_text(uint32_t status) {
    switch (status) {
    case GAMHILON_OK: return "answered";
    case GAMHILON_DOCUMENT_REFUSED:
        return "not of the form of a document, or a text not of its form";
    case GAMHILON_MACRO_RING: return "the macros of a style call each other in a ring";
    case GAMHILON_NUMBER_OVERFLOW: return "the citation numbers don't fit 64 bits";
    case GAMHILON_OUT_OF_MEMORY: return "memory was refused";
    case GAMHILON_BUFFER_TOO_SMALL: return "the buffer is too small for the answer";
    case GAMHILON_TOO_DEEP: return "the elements of a layout nest too deep";
    case GAMHILON_TOO_MANY_ELEMENTS: return "a layout has too many elements";
    case GAMHILON_SESSION_NOT_OPEN: return "the session is not open";
    case GAMHILON_LIMIT_EXCEEDED: return "the style takes more steps or writes more than it may";
    default: return "a status that this version does not know";
    }
}
