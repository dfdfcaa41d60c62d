/* Every call of sheet.h on case A of document 01 and on inputs that are refused, each with what documents 01 and 02 say of it;
 * and the stack that each takes. Compiled as C and as C++; prints what is wrong, and ends with 1 where something is. */
#define _XOPEN_SOURCE 700 /* ucontext */
#define _DEFAULT_SOURCE   /* MAP_ANONYMOUS */
#include "sheet.h"

#include <stdio.h>
#include <string.h>
#include <sys/mman.h>
#include <ucontext.h>

static int wrong = 0;

#define CHECK(fact) check((fact), #fact, __LINE__)

static void check(bool holds, const char *fact, int line) {
    if (!holds) {
        printf("header.c:%d: not so: %s\n", line, fact);
        wrong = 1;
    }
}

static const uint8_t CASE_A[] = {0x01, 0x00, 0x13, 0x03, 0x02, 0x03, 0x02, 0x02, 0x01, 0x02, 0x00,
                                 0x01, 0x00, 0x04, 0x02, 0x03, 0x00, 0x02, 0x00, 0x01, 0x00, 0x01};
#define LENGTH_A sizeof CASE_A

static const char TEXT_A[] =
    "OPTIONS 3\nLIVE 1 LIST 00000003\nFOLLOWS 2 OF 1\nFOLLOWS 3 OF 1\nSTEPS 2\nVERDICT BUILT\nBUILD 0 0 1\n";

/* Case A as read, after 2 follows 1, and reduced; the zero state; and 16 options of four values. */
static struct sheet_state fresh, stepped, reduced, zero, flat;

/* Value a of option i goes with value b of the higher option j, options counted from 1. */
static void allow(struct sheet_state *state, int i, int a, int j, int b) {
    i--, j--;
    state->stated[i] |= (uint32_t)1 << j;
    state->stated[j] |= (uint32_t)1 << i;
    state->rows[sheet_row_place((size_t)i, (size_t)j, (size_t)a)] |= (uint32_t)1 << b;
}

/* "(1,2) 0001 0004; (2,3) 0002 0001 0001": 3 goes with 2 at first, and with 1 once 2 follows 1. Then the list of 2 loses value 1,
 * which is the partner of no value of 1. */
static void make_states(void) {
    const uint8_t sizes[] = {2, 3, 2};
    const uint32_t lists[] = {0x0003, 0x0007, 0x0003};
    fresh.n = 3;
    memcpy(fresh.sizes, sizes, sizeof sizes);
    memcpy(fresh.lists, lists, sizeof lists);
    allow(&fresh, 1, 0, 2, 0);
    allow(&fresh, 1, 1, 2, 2);
    stepped = fresh;
    allow(&fresh, 2, 0, 3, 1);
    allow(&fresh, 2, 1, 3, 0);
    allow(&fresh, 2, 2, 3, 0);
    allow(&stepped, 1, 0, 3, 1);
    allow(&stepped, 1, 1, 3, 0);
    stepped.leaders[1] = 1;
    stepped.lists[1] = 0x0005;
    reduced = stepped;
    reduced.leaders[2] = 1;
    flat.n = 16;
    for (size_t i = 0; i < 16; i++) flat.sizes[i] = 4, flat.lists[i] = 0x000f;
}

static bool same(const struct sheet_state *one, const struct sheet_state *other) {
    return memcmp(one, other, sizeof *one) == 0;
}

static bool all_zero(const uint8_t *bytes, size_t length) {
    while (length > 0 && bytes[length - 1] == 0) length--;
    return length == 0;
}

/* The library prints this text for the bytes, whatever the array held. */
static bool prints(const uint8_t *bytes, size_t length, const char *expected) {
    uint8_t text[SHEET_TEXT_BYTES];
    size_t all = strlen(expected);
    memset(text, 0xff, sizeof text);
    return sheet_text(bytes, length, text) == all && memcmp(text, expected, all) == 0 &&
           all_zero(text + all, sizeof text - all);
}

/* Both readings, cutting and the text of bytes that are refused with this number at this place. */
static void refused_bytes(const uint8_t *bytes, size_t length, int number, size_t place) {
    char text[32];
    sprintf(text, "REFUSED %d AT %d\n", number, (int)place);
    struct sheet_state state = reduced;
    struct sheet_read_answer read = sheet_read(bytes, length, &state);
    CHECK(read.number == number && read.place == place && same(&state, &zero));
    state = reduced;
    read = sheet_read_paired(bytes, length, &state);
    CHECK(read.number == number && read.place == place && same(&state, &zero));
    state = reduced;
    struct sheet_cut_answer cut = sheet_cut(bytes, length, &state);
    CHECK(cut.number == number && cut.place == place && same(&state, &zero));
    CHECK(cut.steps == 0 && cut.kind == SHEET_NO_VERDICT && all_zero(cut.build, sizeof cut.build));
    CHECK(prints(bytes, length, text));
}

/* Each cause of reading: one byte of case A is wrong, or two for 20, its first pair in the place of its second. */
static void check_bytes(void) {
    static const struct { size_t at; uint8_t byte; int number; size_t place; } wrongs[] = {
        {1, 0xff, 1, 0}, {0, 4, 2, 0},  {0, 2, 8, 10}, {0, 3, 8, 10}, {3, 0, 3, 3}, {3, 17, 3, 3}, {4, 0, 4, 4},  {6, 17, 4, 6},   {7, 4, 5, 7},
        {7, 1, 6, 14},   {7, 3, 6, 22}, {8, 0, 7, 8}, {9, 0, 7, 8},  {9, 4, 7, 8},  {14, 4, 7, 14},  {14, 3, 19, 14},
        {15, 1, 19, 14}, {8, 2, 19, 8}, {9, 1, 19, 8}, {14, 1, 6, 20}, {11, 8, 8, 10},
    };
    struct sheet_state state;
    memset(&state, 0xff, sizeof state);
    struct sheet_read_answer read = sheet_read(CASE_A, LENGTH_A, &state);
    CHECK(read.number == SHEET_NOT_REFUSED && read.place == 0 && same(&state, &fresh));
    memset(&state, 0xff, sizeof state);
    struct sheet_cut_answer cut = sheet_cut(CASE_A, LENGTH_A, &state);
    CHECK(cut.number == SHEET_NOT_REFUSED && cut.place == 0 && cut.steps == 2 && same(&state, &reduced));
    CHECK(cut.kind == SHEET_BUILT && cut.build[2] == 1 && all_zero(cut.build, 2) && all_zero(cut.build + 3, 13));
    CHECK(prints(CASE_A, LENGTH_A, TEXT_A));
    for (size_t k = 0; k < sizeof wrongs / sizeof *wrongs; k++) {
        uint8_t bytes[LENGTH_A];
        memcpy(bytes, CASE_A, LENGTH_A);
        bytes[wrongs[k].at] = wrongs[k].byte;
        refused_bytes(bytes, LENGTH_A, wrongs[k].number, wrongs[k].place);
    }
    uint8_t twice[LENGTH_A];
    memcpy(twice, CASE_A, LENGTH_A);
    memcpy(twice + 14, CASE_A + 8, 2);
    refused_bytes(twice, LENGTH_A, SHEET_CAUSE_PAIR_SEQUENCE, 14);
    static const uint8_t blank[] = {3, 0, 14, 2, 2, 1, 1, 1, 2, 0, 0, 0, 1, 0, 0, 0, 0};
    refused_bytes(blank, sizeof blank, SHEET_CAUSE_BLANK_ROW, 13);
    refused_bytes(CASE_A, LENGTH_A - 1, SHEET_CAUSE_LENGTH, 0);
    refused_bytes(NULL, 0, SHEET_CAUSE_LENGTH, 0);
}

/* The longest text: 16 live options without a table. One that follows has a shorter line, by more than its value and its leader's can add to
 * the build. It fits with room to spare, and a zero follows. */
static void check_longest_text(void) {
    static const uint8_t sheet[] = {2, 0, 18, 16, 32, 32, 32, 32, 32, 32, 32, 32, 32, 32, 32, 32, 32, 32, 32, 32, 0};
    uint8_t text[SHEET_TEXT_BYTES];
    memset(text, 0xff, sizeof text);
    size_t length = sheet_text(sheet, sizeof sheet, text);
    CHECK(length == 414 && length == strlen((const char *)text) && all_zero(text + length, sizeof text - length));
}

/* The paired profile: cases C, F and J are of it; of A, B, G and L the first table that is not is named, and of a sheet in version 2. Any other fault is
 * told first, also one that comes later: left over bytes, a row with a value too high, a pair that stands twice, a blank row in version 3. */
static void check_paired(void) {
    static const struct { uint8_t sheet[41]; size_t length; int number; size_t place; int kind; } sheets[] = {
        {{1, 0, 38, 4, 3, 3, 3, 3, 4, 1, 2, 0, 1, 0, 2, 0, 4, 1, 3, 0, 1, 0, 2, 0, 4, 2, 4, 0, 1, 0, 4, 0, 2, 3, 4, 0, 1, 0, 4, 0, 2},
         41, 0, 0, SHEET_BUILT},
        {{1, 0, 38, 4, 3, 3, 3, 3, 4, 1, 2, 0, 1, 0, 2, 0, 4, 1, 3, 0, 1, 0, 2, 0, 4, 2, 4, 0, 2, 0, 1, 0, 4, 3, 4, 0, 1, 0, 4, 0, 2},
         41, 0, 0, SHEET_NONE},
        {{1, 0, 10, 2, 2, 1, 1, 1, 2, 0, 1, 0, 0}, 13, 0, 0, SHEET_BUILT},
        {{1, 0, 19, 3, 2, 3, 2, 2, 1, 2, 0, 1, 0, 4, 2, 3, 0, 2, 0, 1, 0, 1}, 22, SHEET_CAUSE_NOT_PAIRED, 14, SHEET_BUILT},
        {{1, 0, 19, 3, 2, 3, 2, 2, 1, 2, 0, 1, 0, 6, 2, 3, 0, 1, 0, 2, 0, 2}, 22, SHEET_CAUSE_NOT_PAIRED, 8, SHEET_BUILT},
        {{1, 0, 10, 2, 2, 2, 1, 1, 2, 0, 3, 0, 3}, 13, SHEET_CAUSE_NOT_PAIRED, 7, SHEET_OPEN},
        {{1, 0, 10, 2, 2, 2, 1, 1, 2, 0, 1, 0, 1}, 13, SHEET_CAUSE_NOT_PAIRED, 7, SHEET_BUILT},
        {{2, 0, 14, 2, 2, 27, 1, 1, 2, 4, 0, 0, 0, 4, 0, 0, 0}, 17, SHEET_CAUSE_NOT_PAIRED, 7, SHEET_BUILT},
    };
    static const uint8_t longer[] = {1, 0, 11, 2, 2, 2, 1, 1, 2, 0, 1, 0, 1, 0};
    static const uint8_t higher[] = {1, 0, 17, 3, 2, 2, 2, 2, 1, 2, 0, 3, 0, 0, 2, 3, 0, 1, 0, 4};
    static const uint8_t twice[] = {1, 0, 17, 3, 2, 2, 2, 2, 1, 2, 0, 3, 0, 0, 1, 2, 0, 1, 0, 2};
    static const uint8_t blank[] = {3, 0, 21, 3, 1, 2, 1, 2, 1, 2, 0, 0, 0, 3, 2, 3, 0, 0, 0, 1, 0, 0, 0, 0};
    for (size_t k = 0; k < sizeof sheets / sizeof *sheets; k++) {
        struct sheet_state s, plain;
        memset(&s, 0xff, sizeof s);
        CHECK(sheet_read(sheets[k].sheet, sheets[k].length, &plain).number == 0);
        struct sheet_read_answer answer = sheet_read_paired(sheets[k].sheet, sheets[k].length, &s);
        CHECK(answer.number == sheets[k].number && answer.place == sheets[k].place && same(&s, answer.number == 0 ? &plain : &zero));
        CHECK(sheet_cut(sheets[k].sheet, sheets[k].length, &s).kind == sheets[k].kind);
    }
    refused_bytes(longer, sizeof longer, SHEET_CAUSE_CUT_OFF, 13);
    refused_bytes(higher, sizeof higher, SHEET_CAUSE_ROW, 18);
    refused_bytes(twice, sizeof twice, SHEET_CAUSE_PAIR_SEQUENCE, 14);
    refused_bytes(blank, sizeof blank, SHEET_CAUSE_BLANK_ROW, 20);
}

static void refused_step(const struct sheet_state *given, size_t leader, size_t follower, int number) {
    struct sheet_state state = *given;
    struct sheet_step_answer answer = sheet_eliminate(&state, leader, follower);
    CHECK(answer.number == number && answer.steps == 0 && same(&state, given));
}

static void check_steps(void) {
    struct sheet_state s = fresh;
    struct sheet_step_answer answer = sheet_eliminate(&s, 1, 2);
    CHECK(answer.number == 0 && answer.steps == 1 && same(&s, &stepped));
    answer = sheet_reduce(&s);
    CHECK(answer.number == 0 && answer.steps == 1 && same(&s, &reduced));
    s = fresh;
    answer = sheet_reduce(&s);
    CHECK(answer.number == 0 && answer.steps == 2 && same(&s, &reduced));
    refused_step(&zero, 0, 0, SHEET_CAUSE_NOT_SOUND);
    refused_step(&fresh, 0, 1, SHEET_CAUSE_OPTION_NUMBER);
    refused_step(&fresh, 1, 4, SHEET_CAUSE_OPTION_NUMBER);
    refused_step(&fresh, 2, 2, SHEET_CAUSE_NOT_LIVE);
    refused_step(&stepped, 1, 2, SHEET_CAUSE_NOT_LIVE);
    refused_step(&fresh, 1, 3, SHEET_CAUSE_NOT_STATED);
    refused_step(&fresh, 3, 2, SHEET_CAUSE_NOT_FUNCTIONAL);
    s = zero;
    answer = sheet_reduce(&s);
    CHECK(answer.number == SHEET_CAUSE_NOT_SOUND && answer.steps == 0 && same(&s, &zero));
}

/* A sheet of n options, trimmed: the steps, the lists and the leaders that are left, and the verdict. Trimmed again it stays. */
static struct sheet_verdict_answer trimmed(const uint8_t *sheet, size_t length, size_t n, size_t steps, const uint32_t *lists,
                                           const uint8_t *leaders) {
    struct sheet_state s, again;
    CHECK(sheet_read(sheet, length, &s).number == 0 && s.n == n);
    struct sheet_step_answer answer = sheet_trim(&s);
    CHECK(answer.number == 0 && answer.steps == steps);
    CHECK(memcmp(s.lists, lists, n * sizeof *lists) == 0 && memcmp(s.leaders, leaders, n) == 0 && sheet_is_sound(&s));
    again = s;
    answer = sheet_trim(&again);
    CHECK(answer.number == 0 && answer.steps == 0 && same(&again, &s));
    return sheet_verdict(&s);
}

/* Live lists against each other: no step is legal before it and two are after it; one step, and still OPEN; an empty list empties those that
 * it is stated with, and theirs, and no others. Then a sheet that a plain reduction decides and this does not, and case A, which both leave
 * the same. */
static void check_trimming(void) {
    static const uint8_t built[] = {1, 0, 17, 3, 2, 2, 3, 2, 1, 3, 0, 6, 0, 2, 2, 3, 0, 5, 0, 1};
    static const uint8_t open[] = {1, 0, 23, 3, 2, 2, 3, 3, 1, 2, 0, 2, 0, 3, 1, 3, 0, 6, 0, 1, 2, 3, 0, 3, 0, 5};
    static const uint8_t none[] = {1, 0, 18, 4, 2, 2, 2, 2, 2, 1, 2, 0, 3, 0, 3, 2, 3, 0, 0, 0, 0};
    static const uint8_t left[] = {1, 0, 44, 4, 4, 3, 4, 3, 4, 1, 3, 0, 13, 0, 6, 0, 2, 0, 8, 1, 4, 0, 2, 0,
                                   0, 0, 1, 0, 3, 2, 4, 0, 6, 0, 5, 0, 1, 3, 4, 0, 1, 0, 2, 0, 1, 0, 1};
    static const uint32_t built_lists[] = {0x0001, 0x0001, 0x0004}, open_lists[] = {0x0003, 0x0003, 0x0005};
    static const uint32_t none_lists[] = {0, 0, 0, 0x0003};
    static const uint8_t built_leaders[] = {0, 1, 1}, open_leaders[] = {3, 0, 0}, none_leaders[] = {0, 1, 1, 0};
    struct sheet_verdict_answer answer = trimmed(built, sizeof built, 3, 2, built_lists, built_leaders);
    CHECK(answer.kind == SHEET_BUILT && all_zero(answer.build, 2) && answer.build[2] == 2);
    CHECK(trimmed(open, sizeof open, 3, 1, open_lists, open_leaders).kind == SHEET_OPEN);
    CHECK(trimmed(none, sizeof none, 4, 2, none_lists, none_leaders).kind == SHEET_NONE);
    struct sheet_state s, plain;
    CHECK(sheet_read(left, sizeof left, &s).number == 0);
    plain = s;
    CHECK(sheet_trim(&s).steps == 1 && sheet_verdict(&s).kind == SHEET_OPEN);
    CHECK(sheet_reduce(&plain).steps == 3 && sheet_verdict(&plain).kind == SHEET_BUILT);
    s = fresh;
    CHECK(sheet_trim(&s).steps == 2 && same(&s, &reduced));
    s = zero;
    struct sheet_step_answer refused = sheet_trim(&s);
    CHECK(refused.number == SHEET_CAUSE_NOT_SOUND && refused.steps == 0 && same(&s, &zero));
}

static void refused_lead(const struct sheet_state *given, size_t leader, int number) {
    struct sheet_state state = *given;
    struct sheet_step_answer answer = sheet_lead(&state, leader);
    CHECK(answer.number == number && answer.steps == 0 && same(&state, given));
}

/* Cases B, C, F, H and K with a leader that is named, and a sheet more. In K and in that one option 3 follows 1 first, and makes the lower
 * option 2 possible. */
static void check_lead(void) {
    static const struct {
        uint8_t sheet[41];
        size_t length, leader, steps;
        uint8_t leaders[4];
        uint32_t list; /* of the leader */
        int kind;
        uint8_t build[4];
    } cases[] = {
        {{1, 0, 17, 3, 2, 2, 2, 2, 1, 3, 0, 1, 0, 2, 2, 3, 0, 1, 0, 2}, 20, 1, 2, {0, 1, 1}, 0x3, SHEET_BUILT, {0, 0, 0}},
        {{1, 0, 13, 3, 1, 1, 3, 2, 1, 3, 0, 4, 2, 3, 0, 7}, 16, 1, 2, {0, 1, 1}, 0x1, SHEET_BUILT, {0, 0, 2}},
        {{1, 0, 19, 3, 2, 3, 2, 2, 1, 2, 0, 1, 0, 6, 2, 3, 0, 1, 0, 2, 0, 2}, 22, 1, 0, {0, 0, 0}, 0x3, SHEET_OPEN, {0}},
        {{1, 0, 19, 3, 2, 3, 2, 2, 1, 2, 0, 1, 0, 6, 2, 3, 0, 1, 0, 2, 0, 2}, 22, 2, 2, {2, 0, 2}, 0x7, SHEET_BUILT, {0, 0, 0}},
        {{1, 0, 38, 4, 3, 3, 3, 3, 4, 1, 2, 0, 1, 0, 2, 0, 4, 1, 3, 0, 1, 0, 2, 0, 4, 2, 4, 0, 1, 0, 4, 0, 2, 3, 4, 0, 1, 0, 4, 0, 2},
         41, 4, 3, {4, 4, 4, 0}, 0x7, SHEET_BUILT, {0, 0, 0, 0}},
        {{1, 0, 38, 4, 3, 3, 3, 3, 4, 1, 2, 0, 1, 0, 2, 0, 4, 1, 3, 0, 1, 0, 2, 0, 4, 2, 4, 0, 2, 0, 1, 0, 4, 3, 4, 0, 1, 0, 4, 0, 2},
         41, 4, 3, {4, 4, 4, 0}, 0x0, SHEET_NONE, {0}},
        {{1, 0, 4, 2, 2, 2, 0}, 7, 2, 0, {0, 0}, 0x3, SHEET_BUILT, {0, 0}},
    };
    for (size_t k = 0; k < sizeof cases / sizeof *cases; k++) {
        struct sheet_state s, again;
        CHECK(sheet_read(cases[k].sheet, cases[k].length, &s).number == 0);
        struct sheet_step_answer answer = sheet_lead(&s, cases[k].leader);
        CHECK(answer.number == 0 && answer.steps == cases[k].steps && memcmp(s.leaders, cases[k].leaders, s.n) == 0);
        CHECK(s.lists[cases[k].leader - 1] == cases[k].list && sheet_is_sound(&s));
        struct sheet_verdict_answer verdict = sheet_verdict(&s);
        CHECK(verdict.kind == cases[k].kind && memcmp(verdict.build, cases[k].build, s.n) == 0);
        again = s;
        answer = sheet_lead(&again, cases[k].leader);
        CHECK(answer.number == 0 && answer.steps == 0 && same(&again, &s));
    }
    /* 3 follows 2 and comes along when 2 is taken: two new followers, one step */
    struct sheet_state s = fresh;
    CHECK(sheet_eliminate(&s, 2, 3).steps == 1 && sheet_lead(&s, 1).steps == 1 && same(&s, &reduced));
    s = fresh;
    CHECK(sheet_lead(&s, 1).steps == 2 && same(&s, &reduced));
    refused_lead(&zero, 0, SHEET_CAUSE_NOT_SOUND);
    refused_lead(&fresh, 0, SHEET_CAUSE_OPTION_NUMBER);
    refused_lead(&fresh, 4, SHEET_CAUSE_OPTION_NUMBER);
    refused_lead(&reduced, SIZE_MAX, SHEET_CAUSE_OPTION_NUMBER);
    refused_lead(&reduced, 2, SHEET_CAUSE_NOT_LIVE);
}

static void refused_table(const struct sheet_state *given, size_t first, size_t second, const uint32_t *table, size_t length, int number) {
    struct sheet_state state = *given;
    struct sheet_step_answer answer = sheet_add_table(&state, first, second, table, length);
    CHECK(answer.number == number && answer.steps == 0 && same(&state, given));
}

/* On case A reduced, where 2 and 3 follow 1: its list loses the values whose partners a table forbids, and theirs those partners. As
 * read, the pair is cut, or becomes stated, whichever option is named first, and no list changes. */
static void check_tables(void) {
    static const uint32_t later[] = {0x0004, 0x0006}, none[] = {0x0006, 0x0003}, wide[] = {0x0008, 0x0000}, all[] = {0x0003, 0x0003};
    struct sheet_state s = reduced, expected = reduced;
    struct sheet_step_answer answer = sheet_add_table(&s, 3, 2, later, 2);
    expected.lists[0] = 0x0002, expected.lists[1] = 0x0004, expected.lists[2] = 0x0001;
    CHECK(answer.number == 0 && answer.steps == 0 && same(&s, &expected));
    CHECK(sheet_verdict(&s).kind == SHEET_BUILT && sheet_verdict(&s).build[1] == 2);
    s = reduced;
    for (size_t i = 0; i < 3; i++) expected.lists[i] = 0x0000;
    CHECK(sheet_add_table(&s, 1, 2, none, 2).number == 0 && same(&s, &expected) && sheet_verdict(&s).kind == SHEET_NONE);
    /* (2,3) 0002 0001 0001 and (3,2) 0004 0006 have no values in common but 2 of option 2 with 0 of option 3 */
    s = fresh, expected = fresh;
    for (size_t a = 0; a < 3; a++) expected.rows[sheet_row_place(1, 2, a)] = a == 2;
    CHECK(sheet_add_table(&s, 3, 2, later, 2).number == 0 && same(&s, &expected));
    refused_table(&zero, 0, 0, NULL, 0, SHEET_CAUSE_NOT_SOUND);
    refused_table(&fresh, 0, 0, NULL, 0, SHEET_CAUSE_OPTION_NUMBER);
    refused_table(&reduced, 2, 4, later, 2, SHEET_CAUSE_OPTION_NUMBER);
    refused_table(&reduced, 2, 2, NULL, 0, SHEET_CAUSE_SAME_OPTIONS);
    refused_table(&reduced, 2, 3, later, 2, SHEET_CAUSE_TABLE_ROWS);
    refused_table(&reduced, 3, 2, wide, 2, SHEET_CAUSE_TABLE_ROWS);
    refused_table(&reduced, 3, 2, NULL, 0, SHEET_CAUSE_TABLE_ROWS);
    s = fresh, expected = fresh;
    CHECK(sheet_add_table(&s, 3, 1, all, 2).number == 0);
    for (int a = 0; a < 2; a++) {
        for (int b = 0; b < 2; b++) allow(&expected, 1, a, 3, b);
    }
    CHECK(same(&s, &expected));
}

/* The first so many of 16 options of four values. */
static struct sheet_state flat_meter(size_t n) {
    struct sheet_state state = flat;
    state.n = n;
    for (size_t i = n; i < 16; i++) state.sizes[i] = 0, state.lists[i] = 0;
    return state;
}

static void refused_meter(const struct sheet_state *given, int number) {
    struct sheet_state state = *given;
    struct sheet_verdict_answer answer = meter_fit(&state);
    CHECK(answer.number == number && answer.kind == SHEET_NO_VERDICT && all_zero(answer.build, sizeof answer.build) && same(&state, given));
}

/* Page nine: the pair gets the rows 000C 000E 000F 000F. With "each cell for one interval" stated, 1,200 mAh fails at 8 s and the next cell leads. A
 * list that is not full is no ground for a refusal, and a size is. */
static void check_meter(void) {
    static const uint32_t page_nine[] = {0x000c, 0x000e, 0x000f, 0x000f};
    struct sheet_state s = flat_meter(2), expected = s;
    for (int a = 0; a < 4; a++) {
        for (int b = 0; b < 4; b++) {
            if (page_nine[a] >> b & 1) allow(&expected, 1, a, 2, b);
        }
    }
    struct sheet_verdict_answer answer = meter_fit(&s);
    CHECK(answer.number == 0 && answer.kind == SHEET_OPEN && all_zero(answer.build, sizeof answer.build) && same(&s, &expected));
    s = flat_meter(2);
    for (int a = 0; a < 4; a++) allow(&s, 1, a, 2, a);
    answer = meter_fit(&s);
    CHECK(answer.kind == SHEET_BUILT && answer.build[0] == 1 && answer.build[1] == 1 && all_zero(answer.build + 2, 14));
    CHECK(s.lists[0] == 0x000e && s.lists[1] == 0x000e && s.leaders[1] == 1);
    s = flat_meter(2), s.lists[0] = 0x0001;
    answer = meter_fit(&s);
    CHECK(answer.kind == SHEET_BUILT && answer.build[0] == 0 && answer.build[1] == 2);
    s = flat_meter(1), refused_meter(&s, SHEET_CAUSE_NOT_FLAT_METER);
    s = flat_meter(2), s.sizes[1] = 5, refused_meter(&s, SHEET_CAUSE_NOT_FLAT_METER);
    s = flat_meter(3), s.sizes[0] = 3, s.lists[0] = 0x0007, refused_meter(&s, SHEET_CAUSE_NOT_FLAT_METER);
    s = flat_meter(1), s.n = 17, refused_meter(&s, SHEET_CAUSE_NOT_SOUND);
    refused_meter(&fresh, SHEET_CAUSE_NOT_FLAT_METER);
    refused_meter(&zero, SHEET_CAUSE_NOT_SOUND);
}

static void check_sound_and_verdict(void) {
    CHECK(sheet_is_sound(&fresh) && sheet_is_sound(&stepped) && sheet_is_sound(&reduced) && !sheet_is_sound(&zero));
    struct sheet_verdict_answer answer = sheet_verdict(&reduced);
    CHECK(answer.number == 0 && answer.kind == SHEET_BUILT);
    CHECK(answer.build[2] == 1 && all_zero(answer.build, 2) && all_zero(answer.build + 3, 13));
    answer = sheet_verdict(&fresh);
    CHECK(answer.number == 0 && answer.kind == SHEET_OPEN && all_zero(answer.build, 16));
    struct sheet_state apart = fresh; /* its three options without a table */
    memset(apart.stated, 0, sizeof apart.stated);
    memset(apart.rows, 0, sizeof apart.rows);
    apart.lists[1] = 6;
    answer = sheet_verdict(&apart);
    CHECK(answer.number == 0 && answer.kind == SHEET_BUILT && answer.build[1] == 1);
    CHECK(answer.build[0] == 0 && all_zero(answer.build + 2, 14));
    struct sheet_state none = fresh;
    none.lists[1] = 0;
    answer = sheet_verdict(&none);
    CHECK(answer.number == 0 && answer.kind == SHEET_NONE && all_zero(answer.build, 16));
    answer = sheet_verdict(&zero);
    CHECK(answer.number == SHEET_CAUSE_NOT_SOUND && answer.kind == SHEET_NO_VERDICT && all_zero(answer.build, 16));
    struct sheet_state long_list = reduced; /* with value 1 of the follower 2, which is the partner of no value of 1 */
    long_list.lists[1] = 0x0007;
    CHECK(!sheet_is_sound(&long_list) && sheet_verdict(&long_list).number == SHEET_CAUSE_NOT_SOUND);
    refused_step(&long_list, 1, 2, SHEET_CAUSE_NOT_SOUND);
    struct sheet_state no_list = reduced; /* an empty list of a leader goes with empty lists of its followers */
    no_list.lists[0] = 0;
    CHECK(!sheet_is_sound(&no_list));
    no_list.lists[1] = 0, no_list.lists[2] = 0;
    CHECK(sheet_is_sound(&no_list) && sheet_verdict(&no_list).kind == SHEET_NONE);
}

/* Options of so many values each, with the tables that `allow` then states. */
static struct sheet_state sized(size_t n, uint8_t size) {
    struct sheet_state state = zero;
    state.n = n;
    for (size_t i = 0; i < n; i++) state.sizes[i] = size, state.lists[i] = size == 32 ? UINT32_MAX : ((uint32_t)1 << size) - 1;
    return state;
}

/* Any two of the options 1 to n differ. */
static void all_differ(struct sheet_state *state, int n) {
    for (int j = 2; j <= n; j++) {
        for (int i = 1; i < j; i++) {
            for (int a = 0; a < state->sizes[i - 1]; a++) {
                for (int b = 0; b < state->sizes[j - 1]; b++) {
                    if (a != b) allow(state, i, a, j, b);
                }
            }
        }
    }
}

static bool searched(const struct sheet_state *state, int number, int kind) {
    struct sheet_verdict_answer answer = sheet_search(state);
    return answer.number == number && answer.kind == kind && (kind == SHEET_BUILT || all_zero(answer.build, 16));
}

static void check_search(void) {
    static const uint8_t first[16] = {0, 0, 1}, different[16] = {0, 1, 2};
    for (int k = 0; k < 3; k++) {
        struct sheet_verdict_answer answer = sheet_search(k == 0 ? &fresh : k == 1 ? &stepped : &reduced);
        CHECK(answer.number == 0 && answer.kind == SHEET_BUILT && memcmp(answer.build, first, 16) == 0);
    }
    struct sheet_state s = sized(3, 3);
    all_differ(&s, 3);
    struct sheet_verdict_answer answer = sheet_search(&s);
    CHECK(answer.number == 0 && answer.kind == SHEET_BUILT && memcmp(answer.build, different, 16) == 0);
    s = sized(4, 3);
    all_differ(&s, 4);
    CHECK(searched(&s, 0, SHEET_NONE));
    s = sized(6, 10);
    CHECK(searched(&s, 0, SHEET_BUILT)); /* 1,000,000 choices */
    s = sized(4, 32);
    CHECK(searched(&s, SHEET_CAUSE_TOO_MANY_CHOICES, SHEET_NO_VERDICT) && sheet_verdict(&s).kind == SHEET_BUILT);
    s = sized(16, 16);
    CHECK(searched(&s, SHEET_CAUSE_TOO_MANY_CHOICES, SHEET_NO_VERDICT));
    s.lists[15] = 0; /* "an empty list makes that product 0" */
    CHECK(searched(&s, 0, SHEET_NONE));
    CHECK(searched(&zero, SHEET_CAUSE_NOT_SOUND, SHEET_NO_VERDICT));
}

static bool surveyed(const struct sheet_state *state, int number, uint64_t count, bool more, uint32_t a, uint32_t b, uint32_t c) {
    struct sheet_survey_answer answer = sheet_survey(state);
    uint32_t words[16] = {a, b, c};
    return answer.number == number && answer.count == count && answer.more == more && memcmp(answer.words, words, 64) == 0;
}

static void check_survey(void) {
    CHECK(surveyed(&reduced, 0, 2, false, 3, 5, 3));
    struct sheet_state s = sized(3, 2); /* sizes 2, 2, 3: one build, 0 0 2 */
    s.sizes[2] = 3, s.lists[2] = 7;
    allow(&s, 1, 0, 3, 1), allow(&s, 1, 0, 3, 2), allow(&s, 1, 1, 3, 1);
    allow(&s, 2, 0, 3, 0), allow(&s, 2, 0, 3, 2), allow(&s, 2, 1, 3, 0);
    CHECK(surveyed(&s, 0, 1, false, 1, 1, 4));
    s = sized(4, 3);
    all_differ(&s, 4);
    CHECK(surveyed(&s, 0, 0, false, 0, 0, 0));
    s = sized(3, 32);
    all_differ(&s, 3);
    CHECK(surveyed(&s, 0, 32 * 31 * 30, false, UINT32_MAX, UINT32_MAX, UINT32_MAX));
    s = sized(16, 32); /* no table: 2 to the 80th builds */
    struct sheet_survey_answer answer = sheet_survey(&s);
    CHECK(answer.number == 0 && answer.count == UINT64_MAX && answer.more && memcmp(answer.words, s.lists, 64) == 0);
    s = sized(6, 32); /* five that must differ, and one that nothing ties down */
    all_differ(&s, 5);
    CHECK(surveyed(&s, SHEET_CAUSE_TOO_MANY_CHOICES, 0, false, 0, 0, 0));
    s.lists[5] = 0; /* an empty list makes the product 0 */
    CHECK(surveyed(&s, 0, 0, false, 0, 0, 0));
    CHECK(surveyed(&zero, SHEET_CAUSE_NOT_SOUND, 0, false, 0, 0, 0));
}

static void tested_order(const struct sheet_state *state, const uint8_t *order, size_t length, int number, bool is_good) {
    struct sheet_order_answer answer = sheet_test_order(state, order, length);
    CHECK(answer.number == number && answer.is_good == is_good);
}

/* The order that is found, in a buffer with a byte more, which stays. It is good. */
static void found_order(const struct sheet_state *state, const uint8_t *order) {
    uint8_t buffer[17];
    memset(buffer, 0xee, sizeof buffer);
    CHECK(sheet_find_order(state, buffer, state->n) == 0 && memcmp(buffer, order, state->n) == 0 && buffer[state->n] == 0xee);
    tested_order(state, order, state->n, 0, true);
}

/* A finding that is refused leaves the buffer. */
static void no_order(const struct sheet_state *state, size_t length, int number) {
    uint8_t buffer[17], left[17];
    memset(buffer, 0xee, sizeof buffer);
    memcpy(left, buffer, sizeof left);
    CHECK(sheet_find_order(state, buffer, length) == number && memcmp(buffer, left, sizeof left) == 0);
}

/* Case B, whose option 2 governs 1 and 3; case A, whose options 1 and 2 lead to each other; a sheet whose options 1 and 3 do, and stand apart;
 * and one in which 1 governs 3 and that governs 2: reduced, both follow 1, and the order of numbers is good. */
static void check_orders(void) {
    static const uint8_t case_b[] = {1, 0, 19, 3, 2, 3, 2, 2, 1, 2, 0, 1, 0, 6, 2, 3, 0, 1, 0, 2, 0, 2};
    static const uint8_t apart[] = {1, 0, 11, 3, 2, 2, 2, 1, 1, 3, 0, 1, 0, 2};
    static const uint8_t chain[] = {1, 0, 17, 3, 2, 2, 2, 2, 1, 3, 0, 1, 0, 1, 2, 3, 0, 3, 0, 0};
    static const uint8_t o123[] = {1, 2, 3}, o132[] = {1, 3, 2}, o213[] = {2, 1, 3}, o231[] = {2, 3, 1}, o312[] = {3, 1, 2};
    static const uint8_t wrongs[][4] = {{1, 2, 2, 3}, {0, 1, 2, 3}, {1, 2, 4, 3}, {1, 2, 255, 3}, {3, 3, 3, 3}};
    struct sheet_state s;
    CHECK(sheet_read(case_b, sizeof case_b, &s).number == 0);
    found_order(&s, o213);
    tested_order(&s, o231, 3, 0, true);
    tested_order(&s, o123, 3, 0, false);
    tested_order(&s, o312, 3, 0, false);
    found_order(&fresh, o123);
    found_order(&reduced, o123);
    tested_order(&fresh, o213, 3, 0, true);
    tested_order(&fresh, o132, 3, 0, false);
    CHECK(sheet_read(apart, sizeof apart, &s).number == 0);
    found_order(&s, o123);
    CHECK(sheet_read(chain, sizeof chain, &s).number == 0);
    found_order(&s, o132);
    tested_order(&s, o123, 3, 0, false);
    CHECK(sheet_reduce(&s).steps == 2);
    found_order(&s, o123);
    for (size_t k = 0; k < sizeof wrongs / sizeof *wrongs; k++) tested_order(&fresh, wrongs[k], 3, SHEET_CAUSE_ORDER_NUMBERS, false);
    tested_order(&fresh, o123, 2, SHEET_CAUSE_ORDER_NUMBERS, false);
    tested_order(&fresh, wrongs[0], 4, SHEET_CAUSE_ORDER_NUMBERS, false);
    tested_order(&fresh, NULL, 0, SHEET_CAUSE_ORDER_NUMBERS, false);
    tested_order(&zero, NULL, 0, SHEET_CAUSE_NOT_SOUND, false);
    no_order(&fresh, 2, SHEET_CAUSE_BUILD_LENGTH);
    no_order(&fresh, 4, SHEET_CAUSE_BUILD_LENGTH);
    no_order(&zero, 3, SHEET_CAUSE_NOT_SOUND);
    CHECK(sheet_find_order(&fresh, NULL, 0) == SHEET_CAUSE_BUILD_LENGTH && sheet_find_order(&zero, NULL, 0) == SHEET_CAUSE_NOT_SOUND);
}

static void tested(const struct sheet_state *state, const uint8_t *build, size_t length, int number, bool is_build) {
    struct sheet_test_answer answer = sheet_test(state, build, length);
    CHECK(answer.number == number && answer.is_build == is_build);
}

/* The completer answers this number and leaves this in the buffer. */
static void completed(const struct sheet_state *state, const uint8_t *build, size_t length, int number, const uint8_t *left) {
    uint8_t buffer[4];
    memcpy(buffer, build, sizeof buffer);
    CHECK(sheet_complete(state, buffer, length) == number);
    CHECK(memcmp(buffer, left, sizeof buffer) == 0);
}

static void check_builds(void) {
    static const uint8_t low[] = {0, 0, 1, 7}, high[] = {1, 2, 0, 7}, other[] = {0, 1, 0, 7}, beyond[] = {2, 0, 0, 7};
    static const uint8_t low_asked[] = {0, 9, 9, 7}, high_asked[] = {1, 9, 9, 7};
    for (int k = 0; k < 2; k++) {
        const struct sheet_state *state = k == 0 ? &fresh : &reduced;
        tested(state, low, 3, 0, true);
        tested(state, high, 3, 0, true);
        tested(state, other, 3, 0, false);
        tested(state, low, 2, SHEET_CAUSE_BUILD_LENGTH, false);
        tested(state, low, 4, SHEET_CAUSE_BUILD_LENGTH, false);
        tested(state, NULL, 0, SHEET_CAUSE_BUILD_LENGTH, false);
        tested(state, beyond, 3, SHEET_CAUSE_VALUE, false);
        completed(state, low, 3, 0, low);
        completed(state, low, 4, SHEET_CAUSE_BUILD_LENGTH, low);
        completed(state, beyond, 3, SHEET_CAUSE_VALUE, beyond);
        CHECK(sheet_complete(state, NULL, 0) == SHEET_CAUSE_BUILD_LENGTH);
    }
    completed(&reduced, low_asked, 3, 0, low);
    completed(&reduced, high_asked, 3, 0, high);
    completed(&fresh, other, 3, SHEET_CAUSE_VALUES_FORBIDDEN, other);
    tested(&zero, low, 3, SHEET_CAUSE_NOT_SOUND, false);
    completed(&zero, low, 3, SHEET_CAUSE_NOT_SOUND, low);
}

static void follower_value(const struct sheet_state *state, size_t option, size_t value, int number, int found) {
    struct sheet_value_answer answer = sheet_follower_value(state, option, value);
    CHECK(answer.number == number && answer.value == found);
}

/* Case A reduced: option 2 has 0 and 2, and option 3 has 1 and 0, where their leader has 0 and 1. After a table that leaves it 1 alone the
 * value 0 is in no list. Several causes at once: the one tested first. */
static void check_follower_value(void) {
    static const uint32_t later[] = {0x0004, 0x0006};
    static const size_t no_option[] = {0, 4, 17, 256, 257, 258, SIZE_MAX}, no_value[] = {2, 31, 32, 64, 255, 256, 257, SIZE_MAX};
    follower_value(&reduced, 2, 0, 0, 0);
    follower_value(&reduced, 2, 1, 0, 2);
    follower_value(&reduced, 3, 0, 0, 1);
    follower_value(&reduced, 3, 1, 0, 0);
    follower_value(&stepped, 2, 1, 0, 2);
    follower_value(&stepped, 3, 1, SHEET_CAUSE_NOT_LIVE, 0);
    follower_value(&reduced, 1, 9, SHEET_CAUSE_NOT_LIVE, 0);
    for (size_t k = 0; k < sizeof no_option / sizeof *no_option; k++) {
        follower_value(&zero, no_option[k], 0, SHEET_CAUSE_NOT_SOUND, 0);
        follower_value(&reduced, no_option[k], 0, SHEET_CAUSE_OPTION_NUMBER, 0);
    }
    for (size_t k = 0; k < sizeof no_value / sizeof *no_value; k++) {
        follower_value(&fresh, 2, no_value[k], SHEET_CAUSE_NOT_LIVE, 0);
        follower_value(&reduced, 2, no_value[k], SHEET_CAUSE_VALUE, 0);
    }
    struct sheet_state s = reduced;
    CHECK(sheet_add_table(&s, 3, 2, later, 2).number == 0);
    follower_value(&s, 2, 0, SHEET_CAUSE_VALUE, 0);
    follower_value(&s, 3, 1, 0, 0);
    uint8_t build[3];
    for (uint8_t v = 0; v < 2; v++) {
        memset(build, v, sizeof build);
        CHECK(sheet_complete(&reduced, build, 3) == 0);
        follower_value(&reduced, 2, v, 0, build[1]);
        follower_value(&reduced, 3, v, 0, build[2]);
    }
}

/* All bins of a state, each with this count; how many they are. */
static size_t fill(const struct sheet_state *state, struct sheet_bin *bins, uint32_t count) {
    size_t at = 0;
    for (size_t i = 0; i < state->n; i++) {
        for (uint8_t v = 0; v < state->sizes[i]; v++, at++) {
            bins[at].option = (uint8_t)(i + 1), bins[at].value = v, bins[at].count = count;
        }
    }
    return at;
}

/* The bins of case J: two values of option 1 and one of option 2, with these counts. */
static bool bins_are(const struct sheet_bin *bins, uint32_t first, uint32_t second, uint32_t third) {
    static const uint8_t places[3][2] = {{1, 0}, {1, 1}, {2, 0}};
    for (int k = 0; k < 3; k++) {
        if (bins[k].option != places[k][0] || bins[k].value != places[k][1]) return false;
    }
    return bins[0].count == first && bins[1].count == second && bins[2].count == third;
}

/* A list of entries on case J, whose option 1 has a value that no build has: each with its answer and the counts that it leaves. */
static void run_stock(const struct sheet_state *j, struct sheet_bin *bins) {
    static const uint8_t build[] = {0, 0, 0}, other[] = {1, 0, 0};
    const uint32_t most = UINT32_MAX;
    CHECK(fill(j, bins, 0) == 3);
    bins[0].count = 5, bins[2].count = 9;
    CHECK(sheet_deliver(j, bins, 3, 1, 1, most) == 0 && bins_are(bins, 5, most, 9));
    CHECK(sheet_deliver(j, bins, 3, 1, 1, 1) == SHEET_CAUSE_NOT_IN_STOCK && bins_are(bins, 5, most, 9));
    CHECK(sheet_deliver(j, bins, 3, 1, 1, 0) == 0 && bins_are(bins, 5, most, 9));
    CHECK(sheet_deliver(j, bins, 3, 1, 2, 0) == SHEET_CAUSE_NOT_IN_STOCK);
    CHECK(sheet_call_off(j, bins, 3, build, 2, 3) == 0 && bins_are(bins, 2, most, 6));
    CHECK(sheet_call_off(j, bins, 3, build, 2, 3) == SHEET_CAUSE_BIN_TOO_LOW && bins_are(bins, 2, most, 6));
    CHECK(sheet_call_off(j, bins, 3, other, 2, 0) == SHEET_CAUSE_NOT_IN_STOCK);
    CHECK(sheet_call_off(j, bins, 3, build, 3, 3) == SHEET_CAUSE_NOT_IN_STOCK && bins_are(bins, 2, most, 6));
    CHECK(sheet_call_off(j, bins, 3, build, 2, 2) == 0 && bins_are(bins, 0, most, 4));
    CHECK(sheet_call_off(j, bins, 3, build, 2, 0) == 0 && bins_are(bins, 0, most, 4));
}

/* What names no value of case J, and what is no build of it. */
static void check_not_in_stock(const struct sheet_state *j, struct sheet_bin *bins) {
    static const size_t wrongs[][2] = {{0, 0}, {3, 0}, {2, 1}, {17, 0}, {257, 0}, {1, 256}, {1, 257}, {SIZE_MAX, 0}, {1, SIZE_MAX}};
    static const uint8_t other[] = {1, 0}, beyond[] = {2, 0};
    for (size_t k = 0; k < sizeof wrongs / sizeof *wrongs; k++) {
        CHECK(sheet_deliver(j, bins, 3, wrongs[k][0], wrongs[k][1], 1) == SHEET_CAUSE_NOT_IN_STOCK);
        CHECK(sheet_deliver(j, bins, 3, wrongs[k][0], wrongs[k][1], 0) == SHEET_CAUSE_NOT_IN_STOCK);
    }
    /* 28 precedes 29 */
    CHECK(sheet_call_off(j, bins, 3, other, 2, UINT32_MAX) == SHEET_CAUSE_NOT_IN_STOCK);
    CHECK(sheet_call_off(j, bins, 3, beyond, 2, UINT32_MAX) == SHEET_CAUSE_NOT_IN_STOCK);
    CHECK(sheet_call_off(j, bins, 3, beyond, 1, 0) == SHEET_CAUSE_NOT_IN_STOCK);
    CHECK(sheet_call_off(j, bins, 3, NULL, 0, 0) == SHEET_CAUSE_NOT_IN_STOCK);
}

/* Records that are not those of case J: 27 follows 9 and precedes 28 and 29. No bin changes. */
static void check_records(const struct sheet_state *j) {
    static const struct sheet_bin wrongs[][4] = {
        {{1, 1, 7}, {1, 0, 7}, {2, 0, 7}, {2, 1, 7}}, {{2, 0, 7}, {1, 0, 7}, {1, 1, 7}, {2, 1, 7}}, {{1, 0, 7}, {1, 0, 7}, {2, 0, 7}, {2, 1, 7}},
        {{0, 0, 7}, {0, 1, 7}, {1, 0, 7}, {2, 0, 7}}, {{1, 0, 7}, {1, 1, 7}, {2, 1, 7}, {2, 0, 7}}, {{1, 0, 7}, {1, 1, 7}, {3, 0, 7}, {2, 0, 7}},
    };
    static const uint8_t build[] = {0, 0}, other[] = {1, 0};
    struct sheet_bin bins[4];
    for (size_t k = 0; k < sizeof wrongs / sizeof *wrongs; k++) {
        memcpy(bins, wrongs[k], sizeof bins);
        CHECK(sheet_deliver(j, bins, 3, 1, 0, 1) == SHEET_CAUSE_BIN_RECORDS && sheet_deliver(j, bins, 3, 0, 0, 1) == SHEET_CAUSE_BIN_RECORDS);
        CHECK(sheet_call_off(j, bins, 3, build, 2, 1) == SHEET_CAUSE_BIN_RECORDS && sheet_call_off(j, bins, 3, other, 2, 9) == SHEET_CAUSE_BIN_RECORDS);
        CHECK(sheet_deliver(&zero, bins, 3, 1, 0, 1) == SHEET_CAUSE_NOT_SOUND && sheet_call_off(&zero, bins, 3, build, 2, 1) == SHEET_CAUSE_NOT_SOUND);
        CHECK(memcmp(bins, wrongs[k], sizeof bins) == 0);
    }
    /* too few, none, and one too many */
    CHECK(fill(j, bins, 7) == 3);
    bins[3] = bins[2];
    CHECK(sheet_call_off(j, bins, 2, build, 2, 1) == SHEET_CAUSE_BIN_RECORDS && sheet_call_off(j, bins, 4, build, 2, 1) == SHEET_CAUSE_BIN_RECORDS);
    CHECK(sheet_deliver(j, NULL, 0, 1, 0, 1) == SHEET_CAUSE_BIN_RECORDS && sheet_deliver(&zero, NULL, 0, 1, 0, 1) == SHEET_CAUSE_NOT_SOUND);
    CHECK(bins_are(bins, 7, 7, 7) && bins[3].count == 7);
}

/* Case A, to which a table is added between two entries: a build of the sheet is none any more, and the bins stay those that they were.
 * Nothing is drawn where a bin is too low, whichever it is. */
static void check_stock_after_table(void) {
    static const uint32_t table[] = {0x0004, 0x0006};
    static const uint8_t low[] = {0, 0, 1}, high[] = {1, 2, 0};
    static const uint32_t left[] = {5, 3, 5, 6, 3, 3, 5};
    struct sheet_state s = fresh;
    struct sheet_bin bins[7];
    CHECK(fill(&s, bins, 6) == 7);
    CHECK(sheet_call_off(&s, bins, 7, low, 3, 1) == 0 && sheet_add_table(&s, 3, 2, table, 2).number == 0);
    CHECK(sheet_call_off(&s, bins, 7, low, 3, 1) == SHEET_CAUSE_NOT_IN_STOCK && sheet_call_off(&s, bins, 7, high, 3, 3) == 0);
    CHECK(sheet_reduce(&s).number == 0 && sheet_call_off(&s, bins, 7, high, 3, 4) == SHEET_CAUSE_BIN_TOO_LOW);
    /* the last of its bins alone is too low, and then the first alone */
    for (int k = 0; k < 2; k++) {
        bins[6].count = k == 0 ? 0 : 5, bins[0].count = k == 0 ? 5 : 0;
        CHECK(sheet_call_off(&fresh, bins, 7, low, 3, 1) == SHEET_CAUSE_BIN_TOO_LOW);
        CHECK(bins[0].count == (k == 0 ? 5 : 0) && bins[2].count == 5 && bins[6].count == (k == 0 ? 0 : 5));
    }
    bins[0].count = 5;
    for (int k = 0; k < 7; k++) CHECK(bins[k].count == left[k]);
}

/* Bins on a page between two that may not be touched: at its start, at its end, and 512 that fill it. */
static void check_stock(void) {
    enum { PAGE = 4096 };
    static const uint8_t case_j[] = {1, 0, 10, 2, 2, 1, 1, 1, 2, 0, 1, 0, 0};
    struct sheet_state j, most = flat;
    struct sheet_bin bins[3];
    CHECK(sheet_read(case_j, sizeof case_j, &j).number == 0);
    run_stock(&j, bins);
    check_not_in_stock(&j, bins);
    CHECK(bins_are(bins, 0, UINT32_MAX, 4));
    check_records(&j);
    check_stock_after_table();
    CHECK(sheet_reduce(&j).steps == 1); /* its value 1 is in no list then */
    run_stock(&j, bins);
    void *pages = mmap(NULL, 3 * PAGE, PROT_READ | PROT_WRITE, MAP_PRIVATE | MAP_ANONYMOUS, -1, 0);
    CHECK(pages != MAP_FAILED);
    if (pages == MAP_FAILED) return;
    uint8_t *page = (uint8_t *)pages + PAGE;
    struct sheet_bin *held = (struct sheet_bin *)(void *)page;
    CHECK(mprotect(pages, PAGE, PROT_NONE) == 0 && mprotect(page + PAGE, PAGE, PROT_NONE) == 0);
    CHECK(PAGE == SHEET_MOST_BINS * sizeof *held);
    run_stock(&j, held);
    run_stock(&j, held + SHEET_MOST_BINS - 3);
    check_not_in_stock(&j, held + SHEET_MOST_BINS - 3);
    uint8_t last[16];
    for (int i = 0; i < 16; i++) most.sizes[i] = 32, most.lists[i] = UINT32_MAX, last[i] = (uint8_t)(31 - i);
    CHECK(fill(&most, held, 10) == SHEET_MOST_BINS);
    CHECK(sheet_deliver(&most, held, SHEET_MOST_BINS, 16, 31, 5) == 0 && sheet_call_off(&most, held, SHEET_MOST_BINS, last, 16, 10) == 0);
    CHECK(sheet_call_off(&most, held, SHEET_MOST_BINS, last, 16, 1) == SHEET_CAUSE_BIN_TOO_LOW);
    for (int k = 0; k < SHEET_MOST_BINS; k++) {
        CHECK(held[k].count == (k == 511 ? 15u : k % 32 == 31 - k / 32 ? 0u : 10u) && held[k].option == k / 32 + 1 && held[k].value == k % 32);
    }
    munmap(pages, 3 * PAGE);
}

/* The writer answers this and leaves this at the start of the buffer, and the bytes past it as they were. */
static void written(const struct sheet_state *state, size_t length, int number, size_t answered) {
    uint8_t buffer[LENGTH_A + 2], left[LENGTH_A + 2];
    memset(buffer, 0xee, sizeof buffer);
    memset(left, 0xee, sizeof left);
    memcpy(left, CASE_A, answered);
    struct sheet_write_answer answer = sheet_write(state, 1, buffer, length);
    CHECK(answer.number == number && answer.length == answered);
    CHECK(memcmp(buffer, left, sizeof left) == 0);
}

static void check_writing(void) {
    written(&fresh, LENGTH_A, 0, LENGTH_A);
    written(&fresh, LENGTH_A + 1, 0, LENGTH_A);
    written(&fresh, LENGTH_A - 1, SHEET_CAUSE_BUFFER_LENGTH, 0);
    written(&stepped, 0, SHEET_CAUSE_NOT_AS_READ, 0);
    written(&zero, LENGTH_A, SHEET_CAUSE_NOT_SOUND, 0);
    struct sheet_write_answer answer = sheet_write(&fresh, 1, NULL, 0);
    CHECK(answer.number == SHEET_CAUSE_BUFFER_LENGTH && answer.length == 0);
    /* no version is cut to a byte, and 24 precedes 17 and follows 18 */
    static const size_t unknown[] = {0, 4, 255, 256, 257, 258, 259, SIZE_MAX};
    for (size_t k = 0; k < sizeof unknown / sizeof *unknown; k++) {
        CHECK(sheet_write(&fresh, unknown[k], NULL, 0).number == SHEET_CAUSE_NOT_IN_VERSION);
        CHECK(sheet_write(&stepped, unknown[k], NULL, 0).number == SHEET_CAUSE_NOT_AS_READ);
    }
    /* in versions 2 and 3 the five rows have two bytes more each, and read back as the same state */
    for (uint8_t version = 2; version <= 3; version++) {
        uint8_t wide[LENGTH_A + 10];
        struct sheet_state again;
        answer = sheet_write(&fresh, version, wide, sizeof wide);
        CHECK(answer.number == 0 && answer.length == sizeof wide && wide[0] == version);
        CHECK(sheet_read(wide, sizeof wide, &again).number == 0 && same(&again, &fresh));
    }
}

/* Case J has an all-zero row: version 3 bans it, and 26 precedes 17. */
static void check_blank_row(void) {
    static const uint8_t case_j[] = {1, 0, 10, 2, 2, 1, 1, 1, 2, 0, 1, 0, 0};
    struct sheet_state state;
    CHECK(sheet_read(case_j, sizeof case_j, &state).number == 0);
    CHECK(sheet_write(&state, 3, NULL, 0).number == SHEET_CAUSE_BLANK_ROW);
    CHECK(sheet_write(&state, 2, NULL, 0).number == SHEET_CAUSE_BUFFER_LENGTH);
}

/* The same from both sides, and no for what no state has. */
static void check_allows(void) {
    CHECK(sheet_allows(&fresh, 1, 0, 2, 1) && sheet_allows(&fresh, 2, 1, 1, 0) && !sheet_allows(&fresh, 1, 0, 2, 0));
    struct sheet_state apart = zero; /* rows of a pair that is not stated, from one option or from both: not sound, and not allowed */
    apart.rows[0] = 1;
    CHECK(!sheet_allows(&apart, 0, 0, 1, 0) && !sheet_allows(&apart, 1, 0, 0, 0));
    apart.stated[0] = 2;
    CHECK(!sheet_allows(&apart, 0, 0, 1, 0) && !sheet_allows(&apart, 1, 0, 0, 0));
    apart.stated[1] = 1;
    CHECK(sheet_allows(&apart, 0, 0, 1, 0) && sheet_allows(&apart, 1, 0, 0, 0) && !sheet_allows(&apart, 0, 1, 1, 0));
    CHECK(!sheet_allows(&fresh, 0, 0, 0, 0) && !sheet_allows(&fresh, 16, 0, 0, 0) && !sheet_allows(&fresh, 0, 0, 1, 32));
}

/* A refused call on a state stores neither in it nor in a buffer, and one that only looks stores nothing in the state: on pages that may only be read
 * both end as ever. */
struct locked {
    struct sheet_state fresh, stepped, reduced, blank, zero;
    uint8_t bytes[LENGTH_A], values[3];
    struct sheet_bin bins[7];
};

/* Calls that take a const state, each accepted. */
static void check_looks(const struct locked *held) {
    static const uint8_t low[] = {0, 0, 1}, order[] = {1, 2, 3};
    uint8_t room[LENGTH_A] = {0};
    struct sheet_bin bins[7];
    CHECK(fill(&held->fresh, bins, 1) == 7);
    CHECK(sheet_is_sound(&held->fresh) && sheet_allows(&held->fresh, 1, 0, 2, 1));
    CHECK(sheet_write(&held->fresh, 1, room, sizeof room).number == 0 && memcmp(room, CASE_A, LENGTH_A) == 0);
    CHECK(sheet_test(&held->fresh, low, 3).is_build && sheet_test_order(&held->fresh, order, 3).is_good);
    CHECK(sheet_find_order(&held->fresh, room, 3) == 0 && memcmp(room, order, 3) == 0);
    memset(room, 0, 3);
    CHECK(sheet_complete(&held->reduced, room, 3) == 0 && memcmp(room, low, 3) == 0);
    CHECK(sheet_follower_value(&held->reduced, 2, 1).value == 2);
    CHECK(sheet_verdict(&held->reduced).kind == SHEET_BUILT && sheet_search(&held->fresh).kind == SHEET_BUILT);
    CHECK(sheet_deliver(&held->fresh, bins, 7, 1, 0, 1) == 0 && sheet_call_off(&held->fresh, bins, 7, low, 3, 1) == 0);
}

static void check_read_only(void) {
    void *page = mmap(NULL, sizeof(struct locked), PROT_READ | PROT_WRITE, MAP_PRIVATE | MAP_ANONYMOUS, -1, 0);
    CHECK(page != MAP_FAILED);
    if (page == MAP_FAILED) return;
    struct locked *held = (struct locked *)page;
    held->fresh = held->blank = fresh, held->stepped = stepped, held->reduced = reduced, held->zero = zero;
    held->blank.rows[sheet_row_place(0, 1, 0)] = 0, held->values[0] = 2;
    static const uint8_t low[] = {0, 0, 1};
    CHECK(fill(&fresh, held->bins, 0) == 7);
    held->bins[0].count = 5, held->bins[1].count = UINT32_MAX;
    CHECK(mprotect(page, sizeof(struct locked), PROT_READ) == 0);
    CHECK(sheet_eliminate(&held->zero, 1, 2).number == SHEET_CAUSE_NOT_SOUND);
    CHECK(sheet_eliminate(&held->fresh, 0, 2).number == SHEET_CAUSE_OPTION_NUMBER);
    CHECK(sheet_eliminate(&held->stepped, 1, 2).number == SHEET_CAUSE_NOT_LIVE);
    CHECK(sheet_eliminate(&held->fresh, 1, 3).number == SHEET_CAUSE_NOT_STATED);
    CHECK(sheet_eliminate(&held->fresh, 3, 2).number == SHEET_CAUSE_NOT_FUNCTIONAL);
    CHECK(sheet_reduce(&held->zero).number == SHEET_CAUSE_NOT_SOUND);
    CHECK(sheet_trim(&held->zero).number == SHEET_CAUSE_NOT_SOUND);
    CHECK(sheet_lead(&held->zero, 1).number == SHEET_CAUSE_NOT_SOUND);
    CHECK(sheet_lead(&held->fresh, 4).number == SHEET_CAUSE_OPTION_NUMBER);
    CHECK(sheet_lead(&held->stepped, 2).number == SHEET_CAUSE_NOT_LIVE);
    CHECK(sheet_add_table(&held->zero, 1, 2, NULL, 0).number == SHEET_CAUSE_NOT_SOUND);
    CHECK(sheet_add_table(&held->fresh, 0, 2, NULL, 0).number == SHEET_CAUSE_OPTION_NUMBER);
    CHECK(sheet_add_table(&held->fresh, 2, 2, NULL, 0).number == SHEET_CAUSE_SAME_OPTIONS);
    CHECK(sheet_add_table(&held->fresh, 1, 2, NULL, 0).number == SHEET_CAUSE_TABLE_ROWS);
    CHECK(meter_fit(&held->zero).number == SHEET_CAUSE_NOT_SOUND);
    CHECK(meter_fit(&held->fresh).number == SHEET_CAUSE_NOT_FLAT_METER);
    CHECK(sheet_complete(&held->zero, held->bytes, 3) == SHEET_CAUSE_NOT_SOUND);
    CHECK(sheet_complete(&held->fresh, held->bytes, 4) == SHEET_CAUSE_BUILD_LENGTH);
    CHECK(sheet_complete(&held->fresh, held->values, 3) == SHEET_CAUSE_VALUE);
    CHECK(sheet_complete(&held->fresh, held->bytes, 3) == SHEET_CAUSE_VALUES_FORBIDDEN);
    CHECK(sheet_find_order(&held->zero, held->bytes, 3) == SHEET_CAUSE_NOT_SOUND);
    CHECK(sheet_find_order(&held->fresh, held->bytes, 4) == SHEET_CAUSE_BUILD_LENGTH);
    CHECK(sheet_deliver(&held->zero, held->bins, 7, 1, 0, 1) == SHEET_CAUSE_NOT_SOUND);
    CHECK(sheet_deliver(&held->fresh, held->bins, 6, 1, 0, 1) == SHEET_CAUSE_BIN_RECORDS);
    CHECK(sheet_deliver(&held->fresh, held->bins, 7, 4, 0, 1) == SHEET_CAUSE_NOT_IN_STOCK);
    CHECK(sheet_deliver(&held->fresh, held->bins, 7, 1, 1, 1) == SHEET_CAUSE_NOT_IN_STOCK);
    CHECK(sheet_call_off(&held->zero, held->bins, 7, low, 3, 1) == SHEET_CAUSE_NOT_SOUND);
    CHECK(sheet_call_off(&held->fresh, held->bins + 1, 6, low, 3, 1) == SHEET_CAUSE_BIN_RECORDS);
    CHECK(sheet_call_off(&held->fresh, held->bins, 7, held->values, 3, 1) == SHEET_CAUSE_NOT_IN_STOCK);
    CHECK(sheet_call_off(&held->fresh, held->bins, 7, low, 3, 1) == SHEET_CAUSE_BIN_TOO_LOW);
    CHECK(sheet_write(&held->zero, 1, held->bytes, LENGTH_A).number == SHEET_CAUSE_NOT_SOUND);
    CHECK(sheet_write(&held->stepped, 1, held->bytes, LENGTH_A).number == SHEET_CAUSE_NOT_AS_READ);
    CHECK(sheet_write(&held->fresh, 4, held->bytes, LENGTH_A).number == SHEET_CAUSE_NOT_IN_VERSION);
    CHECK(sheet_write(&held->blank, 3, held->bytes, LENGTH_A).number == SHEET_CAUSE_BLANK_ROW);
    CHECK(sheet_write(&held->fresh, 1, held->bytes, LENGTH_A - 1).number == SHEET_CAUSE_BUFFER_LENGTH);
    CHECK(sheet_follower_value(&held->zero, 2, 0).number == SHEET_CAUSE_NOT_SOUND);
    CHECK(sheet_follower_value(&held->fresh, 2, 0).number == SHEET_CAUSE_NOT_LIVE);
    check_looks(held);
    munmap(page, sizeof(struct locked));
}

/* The library is the header's, and its number has the two of the version in it. */
static void check_version(void) {
    CHECK(sheet_version() == SHEET_VERSION);
    CHECK(sheet_version() >> 16 == SHEET_VERSION_MAJOR && (sheet_version() & 0xffff) == SHEET_VERSION_MINOR);
}

/* Each number that a cause has, and 0, has a text of its own. */
static void check_texts(void) {
    CHECK(SHEET_GREATEST_CAUSE == 31);
    const char *none = sheet_cause_text(255);
    unsigned causes = 0;
    for (unsigned one = 0; one <= SHEET_GREATEST_CAUSE + 1; one++) {
        if (strcmp(sheet_cause_text(one), none) == 0) continue;
        causes++;
        for (unsigned other = 0; other < one; other++) {
            CHECK(strcmp(sheet_cause_text(one), sheet_cause_text(other)) != 0);
        }
    }
    CHECK(causes == 32);
    CHECK(strcmp(sheet_cause_text(SHEET_CAUSE_NOT_SOUND), "the state is not sound") == 0);
    CHECK(strcmp(sheet_cause_text(255), sheet_cause_text(SHEET_GREATEST_CAUSE + 1)) == 0);
}

/* The stack that a call takes, with what its caller here holds: on a stack of its own, how far down it wrote. */
static uint8_t stack[16 * SHEET_STACK_BYTES];
static uint8_t bytes[LENGTH_A];
static struct sheet_state held;
static struct sheet_state deep; /* of all but its last option the last value goes */
static struct sheet_bin stock[64]; /* of the 16 options of four values */
static ucontext_t outer, inner;

static uint8_t number; /* of the call */
static void read_it(void) { number = sheet_read(CASE_A, LENGTH_A, &held).number; }
static void paired_it(void) { number = sheet_read_paired(CASE_A, LENGTH_A, &held).number; }
static void write_it(void) { number = sheet_write(&fresh, 1, bytes, LENGTH_A).number; }
static void sound_it(void) { bytes[0] = sheet_is_sound(&reduced); }
static void follow_it(void) { held = fresh, number = sheet_eliminate(&held, 1, 2).number; }
static void add_it(void) {
    static const uint32_t table[] = {0x0004, 0x0006};
    held = fresh, number = sheet_add_table(&held, 3, 2, table, 2).number;
}
static void meter_it(void) { held = flat, bytes[0] = meter_fit(&held).kind; }
static void reduce_it(void) { held = fresh, number = sheet_reduce(&held).number; }
static void trim_it(void) { held = fresh, number = sheet_trim(&held).number; }
static void lead_it(void) { held = fresh, number = sheet_lead(&held, 1).number; }
static void test_it(void) { bytes[0] = sheet_test(&reduced, bytes, 3).number; }
static void complete_it(void) { memset(bytes, 0, 3), number = sheet_complete(&reduced, bytes, 3); }
static void value_it(void) { number = sheet_follower_value(&reduced, 2, 1).number; }
static void order_it(void) { bytes[0] = 1, bytes[1] = 2, bytes[2] = 3, bytes[0] = sheet_test_order(&fresh, bytes, 3).number; }
static void find_it(void) { bytes[0] = sheet_find_order(&fresh, bytes, 3); }
static void deliver_it(void) { fill(&flat, stock, 1), bytes[0] = sheet_deliver(&flat, stock, 64, 1, 0, 1); }
static void call_off_it(void) {
    static const uint8_t build[16] = {0};
    fill(&flat, stock, 1), bytes[0] = sheet_call_off(&flat, stock, 64, build, 16, 1);
}
static void verdict_it(void) { bytes[0] = sheet_verdict(&reduced).kind; }
static void search_it(void) { bytes[0] = sheet_search(&deep).kind; }
static void survey_it(void) { number = sheet_survey(&deep).number; }
static void cut_it(void) { number = sheet_cut(CASE_A, LENGTH_A, &held).number; }
static void text_it(void) {
    static uint8_t text[SHEET_TEXT_BYTES];
    bytes[0] = (uint8_t)sheet_text(CASE_A, LENGTH_A, text);
}

static void run_on_own_stack(void (*call)(void)) {
    memset(stack, 0xa5, sizeof stack);
    getcontext(&inner);
    inner.uc_stack.ss_sp = stack;
    inner.uc_stack.ss_size = sizeof stack;
    inner.uc_link = &outer;
    makecontext(&inner, call, 0);
    swapcontext(&outer, &inner);
}

static void check_stack(void) {
    deep = sized(4, 31);
    for (int k = 1; k < 4; k++) {
        for (int b = 0; b < 31; b++) allow(&deep, k, 30, k + 1, b);
    }
    static void (*const calls[])(void) = {read_it,  paired_it,   write_it, sound_it, follow_it,  reduce_it,   trim_it,
                                          lead_it,  add_it,      test_it,  complete_it, order_it, find_it,    deliver_it,
                                          call_off_it, verdict_it, search_it, survey_it, cut_it, text_it, meter_it,   value_it};
    for (size_t k = 0; k < sizeof calls / sizeof *calls; k++) {
        size_t untouched = 0;
        run_on_own_stack(calls[k]);
        while (untouched < sizeof stack && stack[untouched] == 0xa5) untouched++;
        CHECK(untouched < sizeof stack && sizeof stack - untouched <= SHEET_STACK_BYTES);
    }
}

int main(void) {
    make_states();
    check_bytes();
    check_longest_text();
    check_paired();
    check_steps();
    check_trimming();
    check_lead();
    check_tables();
    check_meter();
    check_sound_and_verdict();
    check_search();
    check_survey();
    check_builds();
    check_follower_value();
    check_orders();
    check_stock();
    check_writing();
    check_blank_row();
    check_allows();
    check_read_only();
    check_version();
    check_texts();
    check_stack();
    return wrong;
}
