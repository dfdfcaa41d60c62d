/* year SHEET LIST: runs a year's deliveries and call-offs over the bins of a sheet, and prints what became of each and what is left.
 * Exit status: 0 the list was run, whatever entries were refused; 1 the sheet is refused, or a line of the list is not of the form
 * below; 2 a file cannot be read or the output not be written.
 *
 * A line of the list is one of these, with numbers in decimal. An empty line and one that begins with # are passed over.
 *     bin OPTION VALUE COUNT          a record of the opening stock; all of them stand before the entries
 *     deliver OPTION VALUE NUMBER     a delivery
 *     call-off NUMBER VALUE VALUE ..  a call-off of the build that has these values, one for each option
 * What is left is printed as such records, so that it can open the next list.
 *
 * Build, in the repository, after `rt lib` in crates/capi:
 *     mkdir -p target && cc -O2 -Iinclude examples/year.c crates/capi/out/libcapi.a -o target/year
 */
#include <stdio.h>
#include <string.h>

#include "sheet.h"

/* One more of each than there can be, so that what is longer is refused. */
enum { MOST_BYTES = SHEET_LARGEST_BYTES + 1, MOST_BINS = SHEET_MOST_BINS + 1, MOST_VALUES = SHEET_MOST_OPTIONS + 1 };

static uint8_t bytes[MOST_BYTES];
static struct sheet_state state;
static struct sheet_bin bins[MOST_BINS];
static size_t bin_count;

/* The numbers of a line. */
static size_t numbers[1 + MOST_VALUES];
static size_t count;

static int failed(const char *name) {
    perror(name);
    return 2;
}

/* A word as a number; false where it is none that fits. */
static bool number(const char *word, size_t *found) {
    for (*found = 0; *word != '\0'; word++) {
        size_t digit = (size_t)(*word - '0');
        if (*word < '0' || *word > '9' || *found > (SIZE_MAX - digit) / 10) {
            return false;
        }
        *found = *found * 10 + digit;
    }
    return true;
}

/* The numbers of the line after its first word; false where a word is none. */
static bool read_numbers(void) {
    const char *word;
    size_t found;
    for (count = 0; (word = strtok(NULL, " \t\r\n")) != NULL; count += count < 1 + MOST_VALUES) {
        if (!number(word, &found)) {
            return false;
        }
        if (count < 1 + MOST_VALUES) {
            numbers[count] = found;
        }
    }
    return true;
}

static bool open_bin(void) {
    if (count != 3 || numbers[0] > UINT8_MAX || numbers[1] > UINT8_MAX || numbers[2] > UINT32_MAX) {
        return false;
    }
    if (bin_count < MOST_BINS) {
        bins[bin_count].option = (uint8_t)numbers[0];
        bins[bin_count].value = (uint8_t)numbers[1];
        bins[bin_count].count = (uint32_t)numbers[2];
        bin_count++;
    }
    return true;
}

static bool deliver(uint8_t *answer) {
    if (count != 3 || numbers[2] > UINT32_MAX) {
        return false;
    }
    *answer = sheet_deliver(&state, bins, bin_count, numbers[0], numbers[1], (uint32_t)numbers[2]);
    return true;
}

static bool call_off(uint8_t *answer) {
    uint8_t build[MOST_VALUES];
    if (count < 1 || numbers[0] > UINT32_MAX) {
        return false;
    }
    for (size_t i = 1; i < count; i++) {
        if (numbers[i] > UINT8_MAX) {
            return false;
        }
        build[i - 1] = (uint8_t)numbers[i];
    }
    *answer = sheet_call_off(&state, bins, bin_count, build, count - 1, (uint32_t)numbers[0]);
    return true;
}

/* One line of the list; false where it is not of the form. The run goes on after an entry that is refused. */
static bool run_line(char *text, size_t line) {
    static bool begun = false;
    uint8_t answer;
    const char *name = strtok(text, " \t\r\n");
    if (name == NULL || name[0] == '#') {
        return true;
    }
    if (!read_numbers()) {
        return false;
    }
    if (strcmp(name, "bin") == 0) {
        return !begun && open_bin();
    }
    begun = true;
    if (!(strcmp(name, "deliver") == 0 ? deliver(&answer) : strcmp(name, "call-off") == 0 && call_off(&answer))) {
        return false;
    }
    if (answer == SHEET_NOT_REFUSED) {
        printf("line %zu: taken\n", line);
    } else {
        printf("line %zu: refused with %d: %s\n", line, answer, sheet_cause_text(answer));
    }
    return true;
}

/* The sheet's state; the exit status where there is none. */
static int read_sheet(const char *name) {
    FILE *file = fopen(name, "rb");
    if (file == NULL) {
        return failed(name);
    }
    size_t length = fread(bytes, 1, sizeof bytes, file);
    if (ferror(file)) {
        return failed(name);
    }
    fclose(file);
    struct sheet_read_answer read = sheet_read(bytes, length, &state);
    if (read.number != SHEET_NOT_REFUSED) {
        fprintf(stderr, "%s: refused with %d at byte %zu: %s\n", name, read.number, read.place, sheet_cause_text(read.number));
        return 1;
    }
    return 0;
}

/* Runs the list; the exit status. */
static int run_list(const char *name) {
    static char text[4096];
    size_t line = 0;
    FILE *file = fopen(name, "r");
    if (file == NULL) {
        return failed(name);
    }
    while (fgets(text, sizeof text, file) != NULL) {
        line++;
        bool whole = strchr(text, '\n') != NULL || feof(file);
        if (!whole || !run_line(text, line)) {
            fflush(stdout); /* what was said before comes before */
            fprintf(stderr, "%s: line %zu is neither a bin, before all entries, nor a delivery or a call-off\n", name, line);
            return 1;
        }
    }
    if (ferror(file)) {
        return failed(name);
    }
    fclose(file);
    return 0;
}

int main(int argc, char **argv) {
    if (argc != 3) {
        fprintf(stderr, "year SHEET LIST\n");
        return 2;
    }
    int status = read_sheet(argv[1]);
    if (status == 0) {
        status = run_list(argv[2]);
    }
    if (status != 0) {
        return status;
    }
    for (size_t i = 0; i < bin_count; i++) {
        printf("bin %d %d %lu\n", bins[i].option, bins[i].value, (unsigned long)bins[i].count);
    }
    /* what is printed may still be on its way */
    if (fflush(stdout) != 0 || ferror(stdout)) {
        return failed("standard output");
    }
    return 0;
}
