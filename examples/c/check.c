/* Checks the map file that its argument names and prints the report, or the refusal.
 * Ends with 0 for a report, 1 for a refusal, 2 where it cannot read the file or print. */
#include <stdio.h>
#include <stdlib.h>

#include "healdrip.h"

/* Bytes of the report buffer, as many as mapcheck has: a longer report is refused with number 11.
 * Who knows the number of pairs, root rows times groups, takes HEALDRIP_REPORT_LENGTH(pairs), which is always enough. */
#define REPORT_ROOM 65536

/* Reads a whole file into memory that the caller frees; NULL where that fails. */
static uint8_t *read_file(const char *name, size_t *length) {
    FILE *file = fopen(name, "rb");
    if (file == NULL) {
        return NULL;
    }
    size_t room = 4096, used = 0;
    uint8_t *bytes = malloc(room);
    while (bytes != NULL && (used += fread(bytes + used, 1, room - used, file)) == room) {
        room *= 2;
        uint8_t *larger = realloc(bytes, room);
        if (larger == NULL) {
            free(bytes);
        }
        bytes = larger;
    }
    if (bytes != NULL && ferror(file)) {
        free(bytes);
        bytes = NULL;
    }
    fclose(file);
    *length = used;
    return bytes;
}

int main(int count, char **arguments) {
    static uint8_t report[REPORT_ROOM];
    size_t length = 0;
    uint8_t *text = count == 2 ? read_file(arguments[1], &length) : NULL;
    if (text == NULL) {
        fprintf(stderr, "usage: check FILE, where FILE can be read\n");
        return 2;
    }
    int64_t code = healdrip_text_check(text, length, report, sizeof report);
    free(text);
    if (code < 0) {
        printf("refusal table row\n%d %d %d\n", HEALDRIP_NUMBER(code), HEALDRIP_TABLE(code), HEALDRIP_ROW(code));
    } else {
        fwrite(report, 1, (size_t)code, stdout);
    }
    if (fflush(stdout) != 0 || ferror(stdout)) {
        perror("standard output");
        return 2;
    }
    return code < 0 ? 1 : 0;
}
