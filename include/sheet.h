/* Option sheets: the proved library for C (C99 or newer) and C++ (C++11 or newer).
 *
 * Words. This header speaks the words of the trade and of document 01: option, value, list, table, live, leader, follower,
 * build. The library's code and proofs have other words for some of them, and so have the names of four calls: `eliminate` is
 * the follow step, `reduce` the full reduction, `trim` the trimming of live lists in turn with it, `lead` the run of steps of one option.
 * docs/GLOSSARY.md maps the two. Options count from 1 in calls and in `leaders`, and from 0 as indices of arrays; values count from 0.
 * The table of two options "is functional from i to j when no value in the list of i has more than one allowed partner in the list of
 * j. So an empty table is functional." What a sound state is stands at sheet_is_sound.
 *
 * Promises. A call takes any bytes and any state, does what its comment says, and ends. That is proved of the library's
 * source, call by call, as an equation with the definitions that docs/PROMISES.md names. The compiler, and what a caller owes
 * (under "Memory"), are outside the proof. Tried and not proved (`bench/run test`): what is marked so below, what stands under
 * "Stack", "Threads" and "Platform", and the inline functions of this header.
 *
 * Refusals. `number` is 0 where a call is not refused, else the number of the cause, one of `enum sheet_cause`. Where several
 * causes hold, the one tested first is answered. A refused call on a state leaves it, and a buffer or bins that it is lent, equal to
 * what they were, and all other parts of its answer are zero, but for a place: that is proved. It also stores nothing there, so
 * that all of them may be read-only, and others may read them meanwhile: that is tried, on pages that may only be read, and not
 * proved. sheet_read, sheet_read_paired and sheet_cut always store a state: the zero state where the sheet is refused. The compiler
 * warns of a call whose number is not looked at (SHEET_MUST_USE), where it can.
 *
 * Memory. Bytes and buffers cross as a pointer and a length: so many bytes may be read there (of a buffer, also written) until
 * the call returns. So do the rows of a table and bins, whose length counts rows or bins. With length 0 the pointer may be
 * anything, NULL too: nothing is read or written through it. Any other pointer points to what its type says. What a call writes
 * must not overlap anything else that it is lent. Nothing is allocated, and nothing is kept after a call. Some answers and a bin have
 * padding, whose bytes may hold anything: compare their fields and not their bytes. A state has none.
 *
 * States. Every call on a state takes a pointer to one, to a const one where it only looks. Each such call is an inline
 * function that hands the state's arrays to the function of the library, NAME_parts; callers in a language that cannot use an
 * inline function declare and call that one. No state is copied.
 *
 * Stack. SHEET_STACK_BYTES are enough for any call; what the caller holds himself, such as a state, is not counted.
 *
 * Threads. The library has no global state: calls on different states and buffers may run at the same time. So may calls that only
 * look at a state, those that take a const one, on one and the same: they store nothing in it.
 *
 * Platform. x86-64 Linux, any processor of level x86-64-v2, which has SSE4.2 and POPCNT. `rt lib` in crates/capi writes
 * crates/capi/out/libcapi.a, which is position-independent and needs nothing but memcpy and memset of the C library; ./install copies
 * it as libsheet.a.
 */
#ifndef SHEET_H
#define SHEET_H

#include <stdbool.h>
#include <stddef.h>
#include <stdint.h>

/* The version of these declarations: MAJOR rises where a caller has to be changed or compiled anew, or a state that he has kept may
 * now be refused, MINOR where something is added. The version in byte 0 of a sheet is another number. sheet_version says which one the
 * library was built with. */
#define SHEET_VERSION_MAJOR 6
#define SHEET_VERSION_MINOR 1
#define SHEET_VERSION (65536u * SHEET_VERSION_MAJOR + SHEET_VERSION_MINOR)

#define SHEET_LARGEST_BYTES 15621 /* "The largest version 2 sheet has 15,621 bytes, which is the limit in number 1" */
#define SHEET_MOST_OPTIONS 16    /* length of the arrays that hold something for each option */
#define SHEET_MOST_VALUES 32     /* the largest size: bits of a list or row that may be set */
#define SHEET_PAIR_ROWS 32       /* rows that a state has room for in each pair */
#define SHEET_ROWS 3840          /* 120 pairs of SHEET_PAIR_ROWS rows */
#define SHEET_MOST_BINS 512      /* bins of a sheet of 16 options of 32 values */
#define SHEET_TEXT_BYTES 512     /* room for every text that sheetcut prints */
#define SHEET_STACK_BYTES 24576  /* the object code takes at most 16,872 (sheet_text); the rest is for memcpy and memset, and margin */

/* On each call whose answer holds a number: a caller that drops the answer is warned, where the compiler can. */
#if (defined(__cplusplus) && __cplusplus >= 201703L) || (defined(__STDC_VERSION__) && __STDC_VERSION__ >= 202311L)
#define SHEET_MUST_USE [[nodiscard]]
#elif defined(__GNUC__)
#define SHEET_MUST_USE __attribute__((warn_unused_result))
#else
#define SHEET_MUST_USE
#endif

#ifdef __cplusplus
extern "C" {
#endif

/* The causes of a refusal by their numbers, each in the words of document 01, or of document 02 where that changed it. */
enum sheet_cause {
    SHEET_NOT_REFUSED = 0,
    SHEET_CAUSE_LENGTH = 1,             /* "under 3 bytes, over 4,101, or not 3 plus the count", with 15,621 for 4,101 */
    SHEET_CAUSE_VERSION = 2,            /* "neither 1 nor 2", and "let 3 pass too" */
    SHEET_CAUSE_OPTION_COUNT = 3,       /* "n is 0 or above 16" */
    SHEET_CAUSE_SIZE = 4,               /* "a size is 0 or above 16", or above 32 in versions 2 and 3 */
    SHEET_CAUSE_TABLE_COUNT = 5,        /* "p above n(n-1)/2" */
    SHEET_CAUSE_CUT_OFF = 6,            /* "a field is cut off, or bytes are left over" */
    SHEET_CAUSE_PAIR = 7,               /* "a of 0, b of 0, or either above n" */
    SHEET_CAUSE_ROW = 8,                /* "row has a bit at or above the size of b" */
    SHEET_CAUSE_NOT_SOUND = 9,          /* "state not sound" */
    SHEET_CAUSE_OPTION_NUMBER = 10,     /* "option number 0 or above n" */
    SHEET_CAUSE_NOT_LIVE = 11,          /* "the two options equal, or one not live"; leader: "the named option is not live";
                                         * a follower's value: the option named is live */
    SHEET_CAUSE_NOT_STATED = 12,        /* "pair not stated" */
    SHEET_CAUSE_NOT_FUNCTIONAL = 13,    /* "not functional from leader to follower" */
    SHEET_CAUSE_BUILD_LENGTH = 14,      /* "build buffer not n bytes"; finding an order: "a buffer not of n bytes" */
    SHEET_CAUSE_VALUE = 15,             /* "completer: a live value not in its list; tester: a value at or above its size";
                                         * a follower's value: not in the list of its leader */
    SHEET_CAUSE_VALUES_FORBIDDEN = 16,  /* "completer: two live values that their stated pair does not allow" */
    SHEET_CAUSE_BUFFER_LENGTH = 17,     /* "written sheet longer than the buffer" */
    SHEET_CAUSE_NOT_AS_READ = 18,       /* "writer: a follower exists or a list is not full" */
    SHEET_CAUSE_PAIR_ORDER = 19,        /* "a is not below b" */
    SHEET_CAUSE_PAIR_SEQUENCE = 20,     /* "the pair is not after the one before" */
    SHEET_CAUSE_SAME_OPTIONS = 21,      /* added table: "two equal options" */
    SHEET_CAUSE_TABLE_ROWS = 22,        /* added table: "a wrong count of rows or a bit at or above the size" */
    SHEET_CAUSE_TOO_MANY_CHOICES = 23,  /* search: "the product of the live list sizes exceeds 1,000,000"; survey: that of the live options
                                         * stated with another live one */
    SHEET_CAUSE_NOT_IN_VERSION = 24,    /* writer: "an unknown version or a size above 16 in version 1" */
    SHEET_CAUSE_NOT_FLAT_METER = 25,    /* page nine: "fewer than two options or where option 1 or 2 is not of size four" */
    SHEET_CAUSE_BLANK_ROW = 26,         /* version 3 "forbids an all-zero row": in a sheet, or in a state to be written */
    SHEET_CAUSE_BIN_RECORDS = 27,       /* stock: "the records aren't exactly those options and values in that order" */
    SHEET_CAUSE_NOT_IN_STOCK = 28,      /* stock: "a non-build (a wrong number of bytes included), an option number 0 or above n, a value at or
                                         * above the size, or a count that would exceed 32 bits" */
    SHEET_CAUSE_BIN_TOO_LOW = 29,       /* stock: "a bin too low" */
    SHEET_CAUSE_ORDER_NUMBERS = 30,     /* planning: "the order does not hold each option exactly once and nothing else" */
    SHEET_CAUSE_NOT_PAIRED = 31         /* paired profile: a table that is not "functional both ways on the full lists" */
};

#define SHEET_GREATEST_CAUSE SHEET_CAUSE_NOT_PAIRED

/* The cause in English, for any number; never NULL. */
static inline const char *sheet_cause_text(unsigned number) {
    switch (number) {
    case SHEET_NOT_REFUSED: return "not refused";
    case SHEET_CAUSE_LENGTH: return "the sheet is under 3 bytes or over 15,621, or its count of bytes is wrong";
    case SHEET_CAUSE_VERSION: return "the version is none of 1, 2 and 3";
    case SHEET_CAUSE_OPTION_COUNT: return "the number of options is 0 or above 16";
    case SHEET_CAUSE_SIZE: return "the size of an option is 0, above 32, or above 16 in version 1";
    case SHEET_CAUSE_TABLE_COUNT: return "there are more tables than pairs of options";
    case SHEET_CAUSE_CUT_OFF: return "a field is cut off, or bytes are left over";
    case SHEET_CAUSE_PAIR: return "a table names an option 0 or above the number of options";
    case SHEET_CAUSE_ROW: return "a row allows a value at or above the size of its option";
    case SHEET_CAUSE_NOT_SOUND: return "the state is not sound";
    case SHEET_CAUSE_OPTION_NUMBER: return "an option number is 0 or above the number of options";
    case SHEET_CAUSE_NOT_LIVE: return "the two options are equal, an option named is not live, or one named as a follower is live";
    case SHEET_CAUSE_NOT_STATED: return "the two options have no table";
    case SHEET_CAUSE_NOT_FUNCTIONAL: return "the table is not functional from leader to follower";
    case SHEET_CAUSE_BUILD_LENGTH: return "the buffer does not have one byte for each option";
    case SHEET_CAUSE_VALUE: return "a value is not in the list of its live option, or at or above the size of its option";
    case SHEET_CAUSE_VALUES_FORBIDDEN: return "a table forbids the values of two live options";
    case SHEET_CAUSE_BUFFER_LENGTH: return "the sheet is longer than the buffer";
    case SHEET_CAUSE_NOT_AS_READ: return "an option follows another, or a list is not full";
    case SHEET_CAUSE_PAIR_ORDER: return "the first option of a table is not below its second";
    case SHEET_CAUSE_PAIR_SEQUENCE: return "a table's pair is not after the one before";
    case SHEET_CAUSE_SAME_OPTIONS: return "the table is for one option and itself";
    case SHEET_CAUSE_TABLE_ROWS: return "the table does not have a row for each value of its first option, or a row allows a value at or above the size of its second";
    case SHEET_CAUSE_TOO_MANY_CHOICES: return "the lists of the live options have more than 1,000,000 choices";
    case SHEET_CAUSE_NOT_IN_VERSION: return "the version to write is unknown, or a size is above what it can hold";
    case SHEET_CAUSE_NOT_FLAT_METER: return "there are fewer than two options, or option 1 or 2 does not have four values";
    case SHEET_CAUSE_BLANK_ROW: return "a row is all-zero, which version 3 forbids";
    case SHEET_CAUSE_BIN_RECORDS: return "the bins are not one for each value of each option, in their order";
    case SHEET_CAUSE_NOT_IN_STOCK: return "there is no such build or value, or a count would exceed 32 bits";
    case SHEET_CAUSE_BIN_TOO_LOW: return "a bin holds too few";
    case SHEET_CAUSE_ORDER_NUMBERS: return "the order does not hold each option exactly once and nothing else";
    case SHEET_CAUSE_NOT_PAIRED: return "a table is not functional both ways";
    default: return "no cause has this number";
    }
}

/* The state of a sheet. It may hold anything: a call that takes one tests first that it is sound (see sheet_is_sound). The zero state is
 * not. */
struct sheet_state {
    size_t n;                               /* how many options, 1 to 16 */
    uint8_t sizes[SHEET_MOST_OPTIONS];      /* how many values each has, 1 to 32 */
    uint32_t lists[SHEET_MOST_OPTIONS];     /* bit v: value v is still open; of a follower: it is the partner of one of its leader's */
    uint8_t leaders[SHEET_MOST_OPTIONS];    /* 0 for a live option, else the number of its leader */
    uint32_t stated[SHEET_MOST_OPTIONS];    /* bit j of stated[i]: options i and j have a table */
    uint32_t rows[SHEET_ROWS];              /* each pair of options once, from its lower one: see sheet_row_place */
};

/* Where the row of value a of option i against the higher option j stands in `rows`, i and j counted from 0, i below j, j below
 * SHEET_MOST_OPTIONS, a below SHEET_PAIR_ROWS. Bit b of it: value a of i goes with value b of j. */
static inline size_t sheet_row_place(size_t i, size_t j, size_t a) {
    return (j * (j - 1) / 2 + i) * SHEET_PAIR_ROWS + a;
}

/* Whether the table of options i and j allows value a of i with value b of j, whichever option is lower; options counted from
 * 0. No where the two are not stated, where i is j, and for numbers that no state has: of every state, a sound one or not. */
static inline bool sheet_allows(const struct sheet_state *state, size_t i, size_t a, size_t j, size_t b) {
    if (i >= SHEET_MOST_OPTIONS || j >= SHEET_MOST_OPTIONS || a >= SHEET_PAIR_ROWS || b >= SHEET_PAIR_ROWS || i == j) {
        return false;
    }
    if ((state->stated[i] >> j & 1) == 0 || (state->stated[j] >> i & 1) == 0) {
        return false;
    }
    return i < j ? (state->rows[sheet_row_place(i, j, a)] >> b & 1) != 0 : (state->rows[sheet_row_place(j, i, b)] >> a & 1) != 0;
}

/* Reading. */
struct sheet_read_answer {
    uint8_t number;
    size_t place;  /* the byte that a refusal is about, counted from 0; 0 where nothing is refused */
};

/* A follow step, a run of them or a table added; the state is changed where it is. */
struct sheet_step_answer {
    uint8_t number;
    size_t steps;  /* how many options were live before and are not now */
};

/* Writing. */
struct sheet_write_answer {
    uint8_t number;
    size_t length;  /* how many bytes the sheet has */
};

/* The tester. */
struct sheet_test_answer {
    uint8_t number;
    bool is_build;
};

/* The value of a follower. */
struct sheet_value_answer {
    uint8_t number;
    uint8_t value;
};

/* The test of an order. */
struct sheet_order_answer {
    uint8_t number;
    bool is_good;
};

/* A bin of the stock: how many there are of one value of one option. */
struct sheet_bin {
    uint8_t option;  /* counted from 1 */
    uint8_t value;   /* counted from 0 */
    uint32_t count;
};

/* What a verdict or a search can say, a search never OPEN. 0 goes with a refusal. */
enum sheet_verdict_kind { SHEET_NO_VERDICT = 0, SHEET_NONE = 1, SHEET_BUILT = 2, SHEET_OPEN = 3 };

/* The verdict or the search. */
struct sheet_verdict_answer {
    uint8_t number;
    uint8_t kind;                       /* one of enum sheet_verdict_kind */
    uint8_t build[SHEET_MOST_OPTIONS];  /* the build shown, zero past n; all zero unless SHEET_BUILT */
};

/* The survey; zero but for the number where it is refused. */
struct sheet_survey_answer {
    uint8_t number;
    bool more;                          /* there are more builds than `count` says */
    uint32_t words[SHEET_MOST_OPTIONS]; /* bit v of words[i]: some build has value v at option i; zero past n */
    uint64_t count;                     /* how many builds there are, at most UINT64_MAX */
};

/* Reading, the full reduction and the verdict in one. */
struct sheet_cut_answer {
    uint8_t number;
    size_t place;                       /* as in sheet_read_answer */
    size_t steps;                       /* of the reduction */
    uint8_t kind;                       /* of the verdict, with its build */
    uint8_t build[SHEET_MOST_OPTIONS];
};

/* The version of the library, as SHEET_VERSION: where the two differ, header and library do not belong together. */
uint32_t sheet_version(void);

/* The functions of the library on the arrays of a state; each is described at the call without _parts below. */
SHEET_MUST_USE
struct sheet_read_answer sheet_read_parts(const uint8_t *bytes, size_t length, size_t *n, uint8_t sizes[SHEET_MOST_OPTIONS],
                                          uint32_t lists[SHEET_MOST_OPTIONS], uint8_t leaders[SHEET_MOST_OPTIONS],
                                          uint32_t stated[SHEET_MOST_OPTIONS], uint32_t rows[SHEET_ROWS]);
SHEET_MUST_USE
struct sheet_read_answer sheet_read_paired_parts(const uint8_t *bytes, size_t length, size_t *n,
                                                 uint8_t sizes[SHEET_MOST_OPTIONS], uint32_t lists[SHEET_MOST_OPTIONS],
                                                 uint8_t leaders[SHEET_MOST_OPTIONS], uint32_t stated[SHEET_MOST_OPTIONS],
                                                 uint32_t rows[SHEET_ROWS]);
SHEET_MUST_USE
struct sheet_write_answer sheet_write_parts(size_t n, const uint8_t sizes[SHEET_MOST_OPTIONS],
                                            const uint32_t lists[SHEET_MOST_OPTIONS], const uint8_t leaders[SHEET_MOST_OPTIONS],
                                            const uint32_t stated[SHEET_MOST_OPTIONS], const uint32_t rows[SHEET_ROWS],
                                            size_t version, uint8_t *buffer, size_t length);
bool sheet_is_sound_parts(size_t n, const uint8_t sizes[SHEET_MOST_OPTIONS], const uint32_t lists[SHEET_MOST_OPTIONS],
                          const uint8_t leaders[SHEET_MOST_OPTIONS], const uint32_t stated[SHEET_MOST_OPTIONS],
                          const uint32_t rows[SHEET_ROWS]);
SHEET_MUST_USE
struct sheet_step_answer sheet_eliminate_parts(size_t n, const uint8_t sizes[SHEET_MOST_OPTIONS],
                                               uint32_t lists[SHEET_MOST_OPTIONS], uint8_t leaders[SHEET_MOST_OPTIONS],
                                               uint32_t stated[SHEET_MOST_OPTIONS], uint32_t rows[SHEET_ROWS], size_t leader,
                                               size_t follower);
SHEET_MUST_USE
struct sheet_step_answer sheet_reduce_parts(size_t n, const uint8_t sizes[SHEET_MOST_OPTIONS],
                                            uint32_t lists[SHEET_MOST_OPTIONS], uint8_t leaders[SHEET_MOST_OPTIONS],
                                            uint32_t stated[SHEET_MOST_OPTIONS], uint32_t rows[SHEET_ROWS]);
SHEET_MUST_USE
struct sheet_step_answer sheet_trim_parts(size_t n, const uint8_t sizes[SHEET_MOST_OPTIONS],
                                          uint32_t lists[SHEET_MOST_OPTIONS], uint8_t leaders[SHEET_MOST_OPTIONS],
                                          uint32_t stated[SHEET_MOST_OPTIONS], uint32_t rows[SHEET_ROWS]);
SHEET_MUST_USE
struct sheet_step_answer sheet_lead_parts(size_t n, const uint8_t sizes[SHEET_MOST_OPTIONS],
                                          uint32_t lists[SHEET_MOST_OPTIONS], uint8_t leaders[SHEET_MOST_OPTIONS],
                                          uint32_t stated[SHEET_MOST_OPTIONS], uint32_t rows[SHEET_ROWS], size_t leader);
SHEET_MUST_USE
struct sheet_step_answer sheet_add_table_parts(size_t n, const uint8_t sizes[SHEET_MOST_OPTIONS],
                                               uint32_t lists[SHEET_MOST_OPTIONS], uint8_t leaders[SHEET_MOST_OPTIONS],
                                               uint32_t stated[SHEET_MOST_OPTIONS], uint32_t rows[SHEET_ROWS], size_t first,
                                               size_t second, const uint32_t *table, size_t length);
SHEET_MUST_USE
struct sheet_test_answer sheet_test_parts(size_t n, const uint8_t sizes[SHEET_MOST_OPTIONS],
                                          const uint32_t lists[SHEET_MOST_OPTIONS], const uint8_t leaders[SHEET_MOST_OPTIONS],
                                          const uint32_t stated[SHEET_MOST_OPTIONS], const uint32_t rows[SHEET_ROWS],
                                          const uint8_t *build, size_t length);
SHEET_MUST_USE
uint8_t sheet_complete_parts(size_t n, const uint8_t sizes[SHEET_MOST_OPTIONS], const uint32_t lists[SHEET_MOST_OPTIONS],
                             const uint8_t leaders[SHEET_MOST_OPTIONS], const uint32_t stated[SHEET_MOST_OPTIONS],
                             const uint32_t rows[SHEET_ROWS], uint8_t *build, size_t length);
SHEET_MUST_USE
struct sheet_value_answer sheet_follower_value_parts(size_t n, const uint8_t sizes[SHEET_MOST_OPTIONS],
                                                     const uint32_t lists[SHEET_MOST_OPTIONS],
                                                     const uint8_t leaders[SHEET_MOST_OPTIONS],
                                                     const uint32_t stated[SHEET_MOST_OPTIONS], const uint32_t rows[SHEET_ROWS],
                                                     size_t option, size_t value);
SHEET_MUST_USE
struct sheet_order_answer sheet_test_order_parts(size_t n, const uint8_t sizes[SHEET_MOST_OPTIONS],
                                                 const uint32_t lists[SHEET_MOST_OPTIONS],
                                                 const uint8_t leaders[SHEET_MOST_OPTIONS],
                                                 const uint32_t stated[SHEET_MOST_OPTIONS], const uint32_t rows[SHEET_ROWS],
                                                 const uint8_t *order, size_t length);
SHEET_MUST_USE
uint8_t sheet_find_order_parts(size_t n, const uint8_t sizes[SHEET_MOST_OPTIONS], const uint32_t lists[SHEET_MOST_OPTIONS],
                               const uint8_t leaders[SHEET_MOST_OPTIONS], const uint32_t stated[SHEET_MOST_OPTIONS],
                               const uint32_t rows[SHEET_ROWS], uint8_t *order, size_t length);
SHEET_MUST_USE
struct sheet_verdict_answer sheet_verdict_parts(size_t n, const uint8_t sizes[SHEET_MOST_OPTIONS],
                                                const uint32_t lists[SHEET_MOST_OPTIONS],
                                                const uint8_t leaders[SHEET_MOST_OPTIONS],
                                                const uint32_t stated[SHEET_MOST_OPTIONS], const uint32_t rows[SHEET_ROWS]);
SHEET_MUST_USE
struct sheet_verdict_answer sheet_search_parts(size_t n, const uint8_t sizes[SHEET_MOST_OPTIONS],
                                               const uint32_t lists[SHEET_MOST_OPTIONS],
                                               const uint8_t leaders[SHEET_MOST_OPTIONS],
                                               const uint32_t stated[SHEET_MOST_OPTIONS], const uint32_t rows[SHEET_ROWS]);
SHEET_MUST_USE
struct sheet_survey_answer sheet_survey_parts(size_t n, const uint8_t sizes[SHEET_MOST_OPTIONS],
                                              const uint32_t lists[SHEET_MOST_OPTIONS],
                                              const uint8_t leaders[SHEET_MOST_OPTIONS],
                                              const uint32_t stated[SHEET_MOST_OPTIONS], const uint32_t rows[SHEET_ROWS]);
SHEET_MUST_USE
uint8_t sheet_deliver_parts(size_t n, const uint8_t sizes[SHEET_MOST_OPTIONS], const uint32_t lists[SHEET_MOST_OPTIONS],
                            const uint8_t leaders[SHEET_MOST_OPTIONS], const uint32_t stated[SHEET_MOST_OPTIONS],
                            const uint32_t rows[SHEET_ROWS], struct sheet_bin *bins, size_t bin_count, size_t option, size_t value,
                            uint32_t amount);
SHEET_MUST_USE
uint8_t sheet_call_off_parts(size_t n, const uint8_t sizes[SHEET_MOST_OPTIONS], const uint32_t lists[SHEET_MOST_OPTIONS],
                             const uint8_t leaders[SHEET_MOST_OPTIONS], const uint32_t stated[SHEET_MOST_OPTIONS],
                             const uint32_t rows[SHEET_ROWS], struct sheet_bin *bins, size_t bin_count, const uint8_t *build,
                             size_t length, uint32_t amount);
SHEET_MUST_USE
struct sheet_cut_answer sheet_cut_parts(const uint8_t *bytes, size_t length, size_t *n, uint8_t sizes[SHEET_MOST_OPTIONS],
                                        uint32_t lists[SHEET_MOST_OPTIONS], uint8_t leaders[SHEET_MOST_OPTIONS],
                                        uint32_t stated[SHEET_MOST_OPTIONS], uint32_t rows[SHEET_ROWS]);

SHEET_MUST_USE
struct sheet_verdict_answer meter_fit_parts(size_t n, const uint8_t sizes[SHEET_MOST_OPTIONS],
                                            uint32_t lists[SHEET_MOST_OPTIONS], uint8_t leaders[SHEET_MOST_OPTIONS],
                                            uint32_t stated[SHEET_MOST_OPTIONS], uint32_t rows[SHEET_ROWS]);

/* Reads a sheet of version 1, 2 or 3, of any length and contents, into `state`: full lists, no leader, and exactly the tables of the sheet are stated.
 * What the state held before does not matter.
 * Numbers 1 to 8, 19, 20 and 26: "Number 1 is tested first, then 2, then fields in file order; at each field 6 precedes its own number."
 * A refusal answers its place and stores the zero state. */
SHEET_MUST_USE
static inline struct sheet_read_answer sheet_read(const uint8_t *bytes, size_t length, struct sheet_state *state) {
    return sheet_read_parts(bytes, length, &state->n, state->sizes, state->lists, state->leaders, state->stated, state->rows);
}

/* Reads a sheet of the paired profile: of "only tables functional both ways on the full lists", in which no row has two values and no value of
 * the higher option stands in two rows. Rows and values without a partner are allowed where sheet_read allows them.
 * Numbers 1 to 8, 19, 20 and 26 as sheet_read, with the same places; then, "after all other tests of reading", 31 for "a sheet that has another
 * kind of table", with the place of the first such pair, that of its lower option. A refusal answers its place and stores the zero state.
 * What it accepts has the answer and the state of sheet_read. After sheet_reduce then, and whatever calls were made before that but
 * sheet_add_table and meter_fit, no two live options are stated together: the verdict "is never OPEN", and SHEET_NONE "is said exactly when
 * no build exists". */
SHEET_MUST_USE
static inline struct sheet_read_answer sheet_read_paired(const uint8_t *bytes, size_t length, struct sheet_state *state) {
    return sheet_read_paired_parts(bytes, length, &state->n, state->sizes, state->lists, state->leaders, state->stated, state->rows);
}

/* Writes the sheet of a state that is as just read, in version 1, 2 or 3, and answers its length; bytes past its end are left as
 * they were.
 * Numbers 9, 18, 24, 26, 17, tested in this order: 26 in version 3, "where a stated table has such a row for its lower-numbered
 * option". A refusal leaves the buffer as it was.
 * Reading what was written gives the same state; writing what was read in its own version, into enough space, gives the same
 * bytes. */
SHEET_MUST_USE
static inline struct sheet_write_answer sheet_write(const struct sheet_state *state, size_t version, uint8_t *buffer,
                                                    size_t length) {
    return sheet_write_parts(state->n, state->sizes, state->lists, state->leaders, state->stated, state->rows, version, buffer,
                             length);
}

/* Whether a state is sound, which every other call on a state tests first (9). By document 01, with sizes up to 32 by document 02:
 *   - "n is 1 to 16, sizes are 1 to 16, each list lies within its size, and all entries past n are zero;
 *   - no option is paired with itself, rows lie within sizes, unstated pairs allow nothing, and a pair seen from its two options says
 *     the same;
 *   - a leader is a live option other than the follower;
 *   - a follower is stated with its leader and with no other option;
 *   - each value in a leader's list has exactly one allowed partner in each of its followers' lists."
 * And by document 02:
 *   - "A value stays in a follower's list exactly when it is the partner of a value in the leader's list."
 * "An empty list is allowed in a sound state, since a step may produce one." Every state that a call leaves of a sound one is sound, and
 * so is that of an accepted sheet. Whoever shortens the list of a leader himself leaves its followers the partners of what is left. A
 * state that was kept from a library before 5.0 may lack the last rule: read its sheet again, and make the same calls. No numbers. */
static inline bool sheet_is_sound(const struct sheet_state *state) {
    return sheet_is_sound_parts(state->n, state->sizes, state->lists, state->leaders, state->stated, state->rows);
}

/* One follow step, `follower` to follow `leader`, options counted from 1, in place: rules 1, 2 and 3 of document 01, and it "also trims
 * the lists of all followers of the leader concerned, new ones included. A value stays in a follower's list exactly when it is the
 * partner of a value in the leader's list". Lists of other followers do not change. Answers 1 step.
 * Numbers 9 to 13, tested upward. A refusal leaves the state as it was and answers 0 steps.
 * The builds of the state stay the same: none is lost and none gained. */
SHEET_MUST_USE
static inline struct sheet_step_answer sheet_eliminate(struct sheet_state *state, size_t leader, size_t follower) {
    return sheet_eliminate_parts(state->n, state->sizes, state->lists, state->leaders, state->stated, state->rows, leader, follower);
}

/* The full reduction, in place: "takes the lowest i that has a legal j, with the lowest such j, and repeats until no step is
 * legal"; each step as above. Answers how many steps it took, at most n - 1.
 * Number 9. A refusal leaves the state as it was and answers 0 steps.
 * The builds of the state stay the same. */
SHEET_MUST_USE
static inline struct sheet_step_answer sheet_reduce(struct sheet_state *state) {
    return sheet_reduce_parts(state->n, state->sizes, state->lists, state->leaders, state->stated, state->rows);
}

/* Trims the live lists against each other, in place: "A value of a live option that has no partner in some live neighbour should
 * vanish .. Remove such values until none is left. What remains is the largest choice of lists within the given ones in which every
 * value has a partner in each stated live pair." A neighbour is a live option that it is stated with, and a partner one in its list.
 * The followers of an option whose list became shorter are trimmed as in a follow step; rows stay as they are. "This trimming comes
 * first; then reduce fully, and alternate until neither changes anything." Answers how many steps all reductions took together, at
 * most n - 1.
 * Number 9. A refusal leaves the state as it was and answers 0 steps.
 * The builds of the state stay the same. An empty list empties those of all live options that stated live pairs lead to from it; it
 * reaches no others. It does not decide all that sheet_reduce does: with shorter lists the reduction goes another way, and may end OPEN
 * where that ends BUILT. */
SHEET_MUST_USE
static inline struct sheet_step_answer sheet_trim(struct sheet_state *state) {
    return sheet_trim_parts(state->n, state->sizes, state->lists, state->leaders, state->stated, state->rows);
}

/* The option `leader`, counted from 1, leads, in place: "Only it takes followers, the lowest possible one each time, until none can
 * follow"; each step as in sheet_eliminate, and after each the lowest is sought anew, since a follower may make a lower one possible.
 * Whoever had another leader keeps it, unless that one comes to follow `leader`: then it follows `leader` too. Answers how many steps
 * it took, at most n - 1; those that come along are no steps.
 * Numbers 9, 10, 11, tested in this order: 11 "when the named option is not live". A refusal leaves the state as it was and answers 0
 * steps.
 * The builds of the state stay the same. "On a sheet just accepted, if every other option can be reached from it through tables
 * functional along the way, it ends as the only live option and the verdict is never OPEN": it is then SHEET_NONE exactly when the sheet
 * has no build, and else shows one. */
SHEET_MUST_USE
static inline struct sheet_step_answer sheet_lead(struct sheet_state *state, size_t leader) {
    return sheet_lead_parts(state->n, state->sizes, state->lists, state->leaders, state->stated, state->rows, leader);
}

/* Adds a table for the options `first` and `second`, counted from 1, live or not, in place: `length` rows, one for each value of the
 * first, value 0 first; bit v of a row says that value v of the second is allowed. The first may have the higher number.
 * "Each option is traced to its live leader; a live option is its own. If the leaders differ, their pair becomes stated. It then
 * allows two values exactly when both are in the leaders' lists, the new table allows their partners, and the pair, if stated
 * before, allowed them. .. If they are one, its list loses the values whose partners the new table forbids", and the lists of all its
 * followers are trimmed as in a follow step. If the leaders differ, no list changes; if they are one, no pair does. Answers 0 steps.
 * Numbers 9, 10, 21, 22, tested in this order; 22 goes by the sizes of the two options named. A refusal leaves the state as it was.
 * Of the builds of the state exactly those stay that keep to the table. */
SHEET_MUST_USE
static inline struct sheet_step_answer sheet_add_table(struct sheet_state *state, size_t first, size_t second,
                                                       const uint32_t *table, size_t length) {
    return sheet_add_table_parts(state->n, state->sizes, state->lists, state->leaders, state->stated, state->rows, first, second,
                                 table, length);
}

/* The tester, on n bytes, a value for each option: "yes exactly when each value is in its option's list and each stated pair
 * allows its two values".
 * Numbers 9, 14, 15, tested in this order. A refusal answers false. */
SHEET_MUST_USE
static inline struct sheet_test_answer sheet_test(const struct sheet_state *state, const uint8_t *build, size_t length) {
    return sheet_test_parts(state->n, state->sizes, state->lists, state->leaders, state->stated, state->rows, build, length);
}

/* The completer, on n bytes: "reads the bytes of live options and writes those of followers; what the follower bytes held before
 * does not matter". What it leaves is the only build of the state with these values of the live options. Answers the number.
 * Numbers 9, 14, 15, 16, tested in this order. A refusal leaves the buffer as it was. */
SHEET_MUST_USE
static inline uint8_t sheet_complete(const struct sheet_state *state, uint8_t *build, size_t length) {
    return sheet_complete_parts(state->n, state->sizes, state->lists, state->leaders, state->stated, state->rows, build, length);
}

/* The value that `option`, counted from 1, has where its leader has the value `value`: what sheet_complete writes for it then, without a
 * buffer. So what a choice of the leader fixes can be shown beside it.
 * Numbers 9, 10, 11, 15, tested in this order: 11 where the option follows none, 15 where its leader's list does not have the value. A
 * refusal answers 0. */
SHEET_MUST_USE
static inline struct sheet_value_answer sheet_follower_value(const struct sheet_state *state, size_t option, size_t value) {
    return sheet_follower_value_parts(state->n, state->sizes, state->lists, state->leaders, state->stated, state->rows, option, value);
}

/* Tests an order to plan in, on n bytes, each option's number once, counted from 1. "An order is good when, for an earlier option i and a
 * later option j, a path from j to i through tables functional along the way implies such a path from i to j": so "none precedes one that
 * governs it", where an option governs another if a path leads from it to the other and none leads back. "The stated tables and lists of
 * the given state count, followers included." Nothing is reduced, and a state and the same state reduced may have other good orders.
 * Numbers 9, 30, tested in this order: 30 "when the order does not hold each option exactly once and nothing else", so also for another
 * length. A refusal answers false. */
SHEET_MUST_USE
static inline struct sheet_order_answer sheet_test_order(const struct sheet_state *state, const uint8_t *order, size_t length) {
    return sheet_test_order_parts(state->n, state->sizes, state->lists, state->leaders, state->stated, state->rows, order, length);
}

/* Finds the first good order and writes it on n bytes, options counted from 1: "the smallest permitted number at each place", one that
 * some good order has there after what was placed. What the bytes held before does not matter. There always is a good order, and the
 * one found is good by sheet_test_order. "A good one need not keep such a part together": options that lead to each other may stand
 * apart. Answers the number.
 * Numbers 9, 14, tested in this order. A refusal leaves the buffer as it was. */
SHEET_MUST_USE
static inline uint8_t sheet_find_order(const struct sheet_state *state, uint8_t *order, size_t length) {
    return sheet_find_order_parts(state->n, state->sizes, state->lists, state->leaders, state->stated, state->rows, order, length);
}

/* The verdict of a state as it is: NONE if some live list is empty; else "BUILT when no live list is empty and no two live options
 * are stated together. Each live option then takes its lowest value"; else OPEN. "The verdict does not reduce first."
 * Number 9. A refusal answers SHEET_NO_VERDICT and no build. */
SHEET_MUST_USE
static inline struct sheet_verdict_answer sheet_verdict(const struct sheet_state *state) {
    return sheet_verdict_parts(state->n, state->sizes, state->lists, state->leaders, state->stated, state->rows);
}

/* The search, which settles what the verdict leaves OPEN: it "finds the first build, live options compared in ascending number and
 * lower values first, or says there is none". SHEET_BUILT comes with that build, and SHEET_NONE is said exactly when the state has
 * no build. It does not reduce first: reducing leaves fewer live options, and which build is the first goes by those.
 * Numbers 9 and 23, tested in this order: 23 "when the product of the live list sizes exceeds 1,000,000; an empty list makes that
 * product 0". A refusal answers SHEET_NO_VERDICT and no build. */
SHEET_MUST_USE
static inline struct sheet_verdict_answer sheet_search(const struct sheet_state *state) {
    return sheet_search_parts(state->n, state->sizes, state->lists, state->leaders, state->stated, state->rows);
}

/* The survey: how many builds the state has, and for each option exactly those values that some build has. An open list may hold values
 * that no build has; they are not in its word. After any calls on an accepted sheet these are the builds of that sheet that keep to the
 * tables added. The count stops at UINT64_MAX, and `more` says whether there are more. Where the state has no build all is zero. Where
 * the verdict is BUILT the count is the product of the live list sizes, and the words are the lists. It changes nothing and does not
 * reduce first.
 * Numbers 9 and 23, tested in this order: 23 when the product of the list sizes of those live options that are stated with another live
 * option exceeds 1,000,000. An option that nothing ties down multiplies the builds and costs no search; an empty list of any live
 * option makes that product 0. A refusal is zero throughout. */
SHEET_MUST_USE
static inline struct sheet_survey_answer sheet_survey(const struct sheet_state *state) {
    return sheet_survey_parts(state->n, state->sizes, state->lists, state->leaders, state->stated, state->rows);
}

/* A delivery: adds `amount` to the bin of `value` of `option`, options counted from 1. Answers the number.
 * "The bins are a list of records, one for each value below each option's size, ascending by option and then by value": of values
 * that are in no list any more, too. They are the caller's, and no call keeps them.
 * Numbers 9, 27, 28, tested in this order: 27 "when the records aren't exactly those options and values in that order", 28 for "an option
 * number 0 or above n, a value at or above the size, or a count that would exceed 32 bits". A refusal changes no bin. An amount of 0 is
 * taken, and so is a value that no build has.
 * "Each entry is one call with its own answer, and the next entry meets the bins as that call left them." Over any list of deliveries
 * and call-offs, on one state or on several, "opening count plus accepted deliveries equals count on hand plus accepted call-offs" for
 * each bin. */
SHEET_MUST_USE
static inline uint8_t sheet_deliver(const struct sheet_state *state, struct sheet_bin *bins, size_t bin_count, size_t option,
                                    size_t value, uint32_t amount) {
    return sheet_deliver_parts(state->n, state->sizes, state->lists, state->leaders, state->stated, state->rows, bins, bin_count,
                               option, value, amount);
}

/* A call-off: "names a build and a number, and draws that number from the bin of each of its values, or from none". Every bin is looked
 * at before any is drawn. The build has n bytes, a value for each option. Answers the number.
 * Numbers 9, 27, 28, 29, tested in this order: 27 as sheet_deliver; 28 for "a non-build (a wrong number of bytes included)", that is for
 * what sheet_test does not say yes to; 29 for "a bin too low". A refusal changes no bin. Of a build an amount of 0 is taken.
 * What is called off after any calls on an accepted sheet is a build of that sheet that keeps to the tables added. */
SHEET_MUST_USE
static inline uint8_t sheet_call_off(const struct sheet_state *state, struct sheet_bin *bins, size_t bin_count, const uint8_t *build,
                                     size_t length, uint32_t amount) {
    return sheet_call_off_parts(state->n, state->sizes, state->lists, state->leaders, state->stated, state->rows, bins, bin_count,
                                build, length, amount);
}

/* What sheet_read, sheet_reduce and sheet_verdict answer one after the other; the reduced state is stored in `state`.
 * Numbers 1 to 8, 19, 20 and 26, as sheet_read. A refusal answers its number and place, 0 steps, SHEET_NO_VERDICT and no build, and
 * stores the zero state. */
SHEET_MUST_USE
static inline struct sheet_cut_answer sheet_cut(const uint8_t *bytes, size_t length, struct sheet_state *state) {
    return sheet_cut_parts(bytes, length, &state->n, state->sizes, state->lists, state->leaders, state->stated, state->rows);
}

/* Page nine of the flat meter. Option 1 is the cell, of 1,200, 1,900, 2,600 or 3,600 mAh, option 2 the sending interval, of 8, 16, 32
 * or 64 s, which draws 22, 14, 10 or 8 microamperes; values in this order. "A cell and an interval go together exactly when capacity x
 * 1,000 is at least draw x 87,600": 1,200 mAh not at 8 and 16 s, 1,900 mAh not at 8 s, all others do. Adds this as a table, reduces
 * fully, in place, and answers the verdict of the state then.
 * Numbers 9, 25, tested in this order; 25 goes by the sizes of the two options, whatever their lists hold. A refusal leaves the state
 * as it was and answers its number, SHEET_NO_VERDICT and no build.
 * Of the builds of the state exactly those stay whose cell and interval go together; no build that it shows breaks page nine. */
SHEET_MUST_USE
static inline struct sheet_verdict_answer meter_fit(struct sheet_state *state) {
    return meter_fit_parts(state->n, state->sizes, state->lists, state->leaders, state->stated, state->rows);
}

/* The text that sheetcut prints for these bytes, which may be a refusal's, is stored in `text`, with zeros past it. Answers how many
 * bytes it has, fewer than SHEET_TEXT_BYTES: at least one zero follows, so that it is a string too. No numbers. */
size_t sheet_text(const uint8_t *bytes, size_t length, uint8_t text[SHEET_TEXT_BYTES]);

#ifdef __cplusplus
}
#endif

/* The layout by which the library was compiled. */
#if defined(__cplusplus)
#define SHEET_HOLDS(name, fact) static_assert(fact, #name)
#elif __STDC_VERSION__ >= 201112L
#define SHEET_HOLDS(name, fact) _Static_assert(fact, #name)
#else
#define SHEET_HOLDS(name, fact) typedef char sheet_holds_##name[(fact) ? 1 : -1]
#endif
#define SHEET_AT(type, field, at) SHEET_HOLDS(type##_##field, offsetof(struct type, field) == (at))
#define SHEET_HAS(type, bytes) SHEET_HOLDS(type##_whole, sizeof(struct type) == (bytes))

SHEET_HOLDS(bins, SHEET_MOST_BINS == SHEET_MOST_OPTIONS * SHEET_MOST_VALUES);
SHEET_HOLDS(arrays, SHEET_ROWS == SHEET_MOST_OPTIONS * (SHEET_MOST_OPTIONS - 1) / 2 * SHEET_PAIR_ROWS);
SHEET_AT(sheet_state, n, 0);
SHEET_AT(sheet_state, sizes, 8);
SHEET_AT(sheet_state, lists, 24);
SHEET_AT(sheet_state, leaders, 88);
SHEET_AT(sheet_state, stated, 104);
SHEET_AT(sheet_state, rows, 168);
SHEET_HAS(sheet_state, 15528);
SHEET_AT(sheet_read_answer, place, 8);
SHEET_HAS(sheet_read_answer, 16);
SHEET_AT(sheet_step_answer, steps, 8);
SHEET_HAS(sheet_step_answer, 16);
SHEET_AT(sheet_write_answer, length, 8);
SHEET_HAS(sheet_write_answer, 16);
SHEET_AT(sheet_test_answer, is_build, 1);
SHEET_HAS(sheet_test_answer, 2);
SHEET_AT(sheet_value_answer, value, 1);
SHEET_HAS(sheet_value_answer, 2);
SHEET_AT(sheet_order_answer, is_good, 1);
SHEET_HAS(sheet_order_answer, 2);
SHEET_AT(sheet_bin, value, 1);
SHEET_AT(sheet_bin, count, 4);
SHEET_HAS(sheet_bin, 8);
SHEET_AT(sheet_verdict_answer, kind, 1);
SHEET_AT(sheet_verdict_answer, build, 2);
SHEET_HAS(sheet_verdict_answer, 18);
SHEET_AT(sheet_survey_answer, more, 1);
SHEET_AT(sheet_survey_answer, words, 4);
SHEET_AT(sheet_survey_answer, count, 72);
SHEET_HAS(sheet_survey_answer, 80);
SHEET_AT(sheet_cut_answer, place, 8);
SHEET_AT(sheet_cut_answer, steps, 16);
SHEET_AT(sheet_cut_answer, kind, 24);
SHEET_AT(sheet_cut_answer, build, 25);
SHEET_HAS(sheet_cut_answer, 48);

#undef SHEET_HAS
#undef SHEET_AT
#undef SHEET_HOLDS

#endif
