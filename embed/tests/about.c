/* about: prints the library's version and the text of each status up to 12, a line each. */
#include "gamhilon.h"

#include <stdio.h>

int main(void) {
    printf("%s %d.%d.%d\n%s\n", GAMHILON_VERSION, GAMHILON_VERSION_MAJOR, GAMHILON_VERSION_MINOR, GAMHILON_VERSION_PATCH, gamhilon_version());
    for (uint32_t status = 0; status < 13; status++) printf("%s\n", gamhilon_status_text(status));
    return 0;
}
