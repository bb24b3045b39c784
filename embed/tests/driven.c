/* driven FILE: a host that writes each cite as the key of its entry. It hands in the driven document of FILE, which has no
 * `written`, writes what is missing, and hands it in again, until nothing is. Writes a line for each call: its status, and what
 * came of it; where the document is refused, the fault. */
#include "gamhilon.h"

#include <stdio.h>
#include <string.h>

enum { BUFFER_LENGTH = 1 << 20, MOST_CALLS = 9 };

static char document[BUFFER_LENGTH], written[BUFFER_LENGTH], handed_in[2 * BUFFER_LENGTH + 32];
static uint8_t buffer[BUFFER_LENGTH];

/* What stands behind the JSON object that begins here. */
static const char *behind(const char *object) {
    int depth = 0, in_text = 0;
    do {
        if (*object == '"') in_text = !in_text;
        else if (in_text && *object == '\\') object++;
        else if (!in_text) depth += (*object == '{') - (*object == '}');
        object++;
    } while (depth > 0);
    return object;
}

/* Writes each of the tasks, which stand one behind the other with commas between them. */
static void write_all(const char *task) {
    while (*task == '{') {
        const char *end = behind(task), *key = strstr(task, "\"entry\":\"") + 9;
        sprintf(written + strlen(written),
                "%s{\"task\":%.*s,\"tree\":[{\"text\":\"%.*s\",\"font_style\":\"normal\",\"font_weight\":\"normal\"}]}",
                written[0] ? "," : "", (int)(end - task), task, (int)strcspn(key, "\""), key);
        task = *end == ',' ? end + 1 : end;
    }
}

int main(int argc, char **argv) {
    FILE *file = argc == 2 ? fopen(argv[1], "rb") : NULL;
    if (file == NULL) return 2;
    document[fread(document, 1, BUFFER_LENGTH - 1, file)] = 0;
    fclose(file);
    *strrchr(document, '}') = 0;
    for (int call = 0; call < MOST_CALLS; call++) {
        size_t length, n = (size_t)sprintf(handed_in, written[0] ? "%s,\"written\":[%s]}" : "%s}", document, written);
        uint32_t status = gamhilon_drive((const uint8_t *)handed_in, n, buffer, BUFFER_LENGTH - 1, &length);
        if (status == GAMHILON_DOCUMENT_REFUSED)
            gamhilon_find_driven_fault((const uint8_t *)handed_in, n, buffer, BUFFER_LENGTH - 1, &length);
        printf("%u %.*s\n", (unsigned)status, (int)length, (const char *)buffer);
        if (status != GAMHILON_OK || memcmp(buffer, "{\"missing\":[", 12) != 0) return 0;
        buffer[length] = 0;
        write_all((const char *)buffer + 12);
    }
    return 1;
}
