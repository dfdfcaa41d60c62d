/* live [FILE]: reads a sheet from a file or from standard input, reduces it, and prints its live options with their lists.
 * Exit status: 0 printed; 1 the sheet is refused; 2 the input cannot be read or the output not be written.
 *
 * Build, in the repository, after `rt lib` in crates/capi:
 *     mkdir -p target && cc -O2 -Iinclude examples/live.c crates/capi/out/libcapi.a -o target/live
 */
#include <stdio.h>

#include "sheet.h"

/* One byte more than the largest sheet, so that a longer file is refused. */
static uint8_t bytes[SHEET_LARGEST_BYTES + 1];

static int failed(const char *name) {
    perror(name);
    return 2;
}

int main(int argc, char **argv) {
    const char *name = argc > 1 ? argv[1] : "standard input";
    FILE *file = argc > 1 ? fopen(name, "rb") : stdin;
    if (file == NULL) {
        return failed(name);
    }
    size_t length = fread(bytes, 1, sizeof bytes, file);
    if (ferror(file)) {
        return failed(name);
    }
    static struct sheet_state state;
    struct sheet_read_answer read = sheet_read(bytes, length, &state);
    if (read.number != SHEET_NOT_REFUSED) {
        fprintf(stderr, "%s: refused with %d at byte %zu: %s\n", name, read.number, read.place, sheet_cause_text(read.number));
        return 1;
    }
    if (sheet_reduce(&state).number != SHEET_NOT_REFUSED) {
        return 1; /* a state that was just read is sound, so that nothing refuses it */
    }
    for (size_t i = 0; i < state.n; i++) {
        if (state.leaders[i] == 0) {
            printf("option %zu list %08X\n", i + 1, (unsigned)state.lists[i]);
        }
    }
    /* what is printed may still be on its way */
    if (fflush(stdout) != 0 || ferror(stdout)) {
        return failed("standard output");
    }
    return 0;
}
