/* Prints the run of a sheet by the linked library: example [FILE], or the sheet on standard input.
 *
 * Its status is 0 if the run is printed, 1 if the sheet is refused (the text is then X and the number), 2 if something else fails.
 */
#include "sanding.h"

#include <errno.h>
#include <stdio.h>
#include <string.h>

/* One byte more than a sheet may have is enough for a refusal. */
static uint8_t sheet[SANDING_SHEET + 1];
static uint8_t out[SANDING_ROOM];

static int fail(const char *what) {
    fprintf(stderr, "example: %s: %s\n", what, strerror(errno));
    return 2;
}

int main(int argc, char **argv) {
    if (argc > 2) {
        fprintf(stderr, "usage: example [FILE]\n");
        return 2;
    }
    const char *name = argc == 2 ? argv[1] : "standard input";
    FILE *file = argc == 2 ? fopen(name, "rb") : stdin;
    if (file == NULL) {
        return fail(name);
    }
    size_t sheet_length = fread(sheet, 1, sizeof sheet, file);
    if (ferror(file)) {
        return fail(name);
    }
    if (file != stdin) {
        fclose(file);
    }

    uint8_t refusal = sanding_refusal(sheet, sheet_length);
    size_t length = sanding_run(sheet, sheet_length, out, sizeof out);
    if (fwrite(out, 1, length, stdout) != length || fflush(stdout) != 0) {
        return fail("standard output");
    }
    if (refusal != 0) {
        fprintf(stderr, "example: %s: the sheet is refused with number %d\n", name, refusal);
        return 1;
    }
    return 0;
}
