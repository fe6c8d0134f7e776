/* Holds the macros of include/healdrip.h to the answers of the library. It is compiled as C and as C++.
 * Ends with 0, or with 1 and the line of the first check that does not hold. */
#include <assert.h>
#include <stdarg.h>
#include <stdio.h>
#include <string.h>

#include "healdrip.h"

/* A code taken apart, also one that is an expression. */
static_assert(HEALDRIP_NUMBER(-1460000003) == 14, "number");
static_assert(HEALDRIP_TABLE(-1460000003) == 6, "table");
static_assert(HEALDRIP_ROW(-1460000003) == 3, "row");
static_assert(HEALDRIP_NUMBER(1 ? -1030999999 : 0) == 10, "number");
static_assert(HEALDRIP_TABLE(1 ? -1030999999 : 0) == 3, "table");
static_assert(HEALDRIP_ROW(-1030000000 - 999999) == 999999, "row");
static_assert(HEALDRIP_NUMBER(-100000000) == 1 && HEALDRIP_TABLE(-100000000) == 0 && HEALDRIP_ROW(-100000000) == 0, "lowest");
static_assert(HEALDRIP_NUMBER(-1650000999) == 16 && HEALDRIP_TABLE(-1650000999) == 5 && HEALDRIP_ROW(-1650000999) == 999, "highest");

/* The report's length by the texts of its lines, each as long as it can be; sizeof counts the zero behind a text. */
#define BYTES(text) (sizeof(text) - 1)
#define UPPER_NAMES "root leaf verdict rspec rimpl wspec wimpl\n"
#define LOWER_NAMES "\nverdict equal partial different root leaf address\n"
#define LONGEST_LINE "999 999 2 1024 1024 1024 1024\n"
#define LONGEST_RESULT "2 1000000 1000000 1000000 999 999 36028797018963967\n"
static_assert((1LL << 55) - 1 == 36028797018963967, "the highest bit address");
static_assert(HEALDRIP_REPORT_LENGTH(0) == BYTES(UPPER_NAMES LOWER_NAMES LONGEST_RESULT), "no pair");
static_assert(HEALDRIP_REPORT_LENGTH(1) == BYTES(UPPER_NAMES LONGEST_LINE LOWER_NAMES LONGEST_RESULT), "one pair");
static_assert(HEALDRIP_REPORT_LENGTH(500 + 500) == HEALDRIP_REPORT_LENGTH(0) + 1000 * BYTES(LONGEST_LINE), "pairs");

#define CHECK(fact)                                          \
    do {                                                     \
        if (!(fact)) {                                       \
            fprintf(stderr, "header.c:%d: %s\n", __LINE__, #fact); \
            return 1;                                        \
        }                                                    \
    } while (0)

enum { TEXT_ROOM = 65536, ROOM = 1 << 19 };
static char text[TEXT_ROOM];
static size_t text_length;
static uint8_t report[ROOM];

/* Adds a line to the text. */
static void add(const char *format, ...) {
    va_list values;
    va_start(values, format);
    text_length += (size_t)vsnprintf(text + text_length, TEXT_ROOM - text_length, format, values);
    va_end(values);
}

/* Checks the text with a report buffer of so many bytes. */
static int64_t check(size_t room) {
    return healdrip_text_check((const uint8_t *)text, text_length, report, room);
}

/* As many roots as leaves, each joined to each through one segment: every pair has a line. */
static void joined_map(int count) {
    text_length = 0;
    add("side kind base range unit\n");
    for (int side = 0; side < 2; side++) {
        add("%d 1 0 2000 8\n", side);
        for (int row = 0; row < count; row++) {
            add("%d 0 0 2000 8\n%d 2 0 1 8\n", side, side);
        }
    }
    add("\nside from to offset\n");
    for (int side = 0; side < 2; side++) {
        for (int row = 0; row < count; row++) {
            add("%d %d 0 0\n%d 0 %d %d\n", side, 2 * row + 1, side, 2 * row + 2, row);
        }
    }
    add("\nrole spec impl\n");
    for (int row = 0; row < count; row++) {
        add("0 %d %d\n1 %d %d\n", 2 * row + 1, 2 * row + 1, 2 * row + 2, 2 * row + 2);
    }
}

/* As many roots as banks, each joined to each through one segment. The banks are those of one block of the specification, a unit each, and the
 * last begins so many bits above where it should. */
static void banked_map(int count, long long more) {
    text_length = 0;
    add("side kind base range unit\n0 1 0 2000 8\n0 2 0 %d 8\n1 1 0 2000 8\n", count);
    for (int row = 0; row < count; row++) {
        add("1 2 0 1 8\n0 0 0 2000 8\n1 0 0 2000 8\n");
    }
    add("\nside from to offset\n0 0 1 0\n");
    for (int row = 0; row < count; row++) {
        add("0 %d 0 0\n1 %d 0 0\n1 0 %d %d\n", 2 + row, 2 + 2 * row, 1 + 2 * row, row);
    }
    add("\nrole spec impl at\n");
    for (int row = 0; row < count; row++) {
        add("0 %d %d 0\n1 1 %d %lld\n", 2 + row, 2 + 2 * row, 1 + 2 * row, 8 * row + (row + 1 == count ? more : 0));
    }
}

enum { PAIRS = 990, STAGES = 10, SEGMENTS = STAGES - 1 };
/* The last root and the last leaf are joined over stages of two edges each, so by 1,024 paths with as many displacements, at the highest
 * bit addresses. The leaf of the implementation lies one unit higher. No other root is joined with a leaf. */
static void widest_map(void) {
    const long long base = (1LL << 48) - 4096;
    text_length = 0;
    add("side kind base range unit\n");
    for (int side = 0; side < 2; side++) {
        for (int row = 0; row < PAIRS - 1; row++) {
            add("%d 0 0 1 8\n", side);
        }
        for (int row = 0; row < 1 + SEGMENTS; row++) {
            add("%d 0 %lld 4096 128\n", side, base);
        }
        add("%d 2 %lld 1 128\n", side, base + 1024 + side);
        for (int row = 0; row < PAIRS - 1; row++) {
            add("%d 2 0 1 8\n", side);
        }
    }
    add("\nside from to offset\n");
    for (int side = 0; side < 2; side++) {
        for (int stage = 0; stage < STAGES; stage++) {
            int from = PAIRS - 1 + stage;
            add("%d %d %d 0\n%d %d %d %d\n", side, from, from + 1, side, from, from + 1, 1 << stage);
        }
    }
    add("\nrole spec impl\n");
    for (int row = 0; row < PAIRS; row++) {
        add("0 %d %d\n", row, row);
    }
    for (int row = PAIRS; row > 0; row--) {
        int leaf = PAIRS - 1 + SEGMENTS + row;
        add("1 %d %d\n", leaf, leaf);
    }
}

int main(void) {
    /* The argument is evaluated once. */
    int64_t codes[] = {-1460000003, -300000000};
    const int64_t *code = codes;
    CHECK(HEALDRIP_NUMBER(*code++) == 14 && code == codes + 1);
    CHECK(HEALDRIP_TABLE(*code++) == 0 && code == codes + 2);

    text_length = 0;
    add("side kind base range\n");
    int64_t refused = check(ROOM);
    CHECK(HEALDRIP_NUMBER(refused) == 13 && HEALDRIP_TABLE(refused) == 6 && HEALDRIP_ROW(refused) == 1);

    /* A block that may be read alone, and built writable; and an access that there is not. */
    const char *writable = UPPER_NAMES "0 0 2 1 1 0 1\n" LOWER_NAMES "2 0 0 1 0 0 0\n";
    for (int access = 0; access < 2; access++) {
        text_length = 0;
        add("side kind base range unit access\n0 0 0 8 8 0\n0 2 0 8 8 1\n1 0 0 8 8 0\n1 2 0 8 8 %d\n", 3 * access);
        add("\nside from to offset\n0 0 1 0\n1 0 1 0\n\nrole spec impl\n0 0 0\n1 1 1\n");
        int64_t answer = check(HEALDRIP_REPORT_LENGTH(1));
        if (access == 0) {
            CHECK(answer == (int64_t)strlen(writable) && memcmp(report, writable, strlen(writable)) == 0);
        } else {
            CHECK(HEALDRIP_NUMBER(answer) == 2 && HEALDRIP_TABLE(answer) == 2 && HEALDRIP_ROW(answer) == 1);
        }
    }

    /* Every pair has a line: the buffer is long enough, and not much longer than the report. */
    const int counts[] = {1, 2, 11, 80, 101};
    for (size_t at = 0; at < sizeof counts / sizeof *counts; at++) {
        size_t pairs = (size_t)counts[at] * (size_t)counts[at];
        joined_map(counts[at]);
        CHECK(text_length < TEXT_ROOM && HEALDRIP_REPORT_LENGTH(pairs) <= ROOM);
        int64_t length = check(HEALDRIP_REPORT_LENGTH(pairs));
        CHECK(length > (int64_t)(14 * pairs) && length <= (int64_t)HEALDRIP_REPORT_LENGTH(pairs));
    }

    /* A group has one line for each root, whatever the number of its banks. */
    enum { BANKS = 300 };
    const long long last_at = (1LL << 55) - 1, right = 8 * (BANKS - 1);
    banked_map(BANKS, 0);
    CHECK(text_length < TEXT_ROOM);
    int64_t banked = check(HEALDRIP_REPORT_LENGTH(BANKS));
    CHECK(banked > 14 * BANKS && banked <= (int64_t)HEALDRIP_REPORT_LENGTH(BANKS));
    const char *all_equal = "\n0 300 0 0 -1 -1 -1\n";
    CHECK(memcmp(report + banked - strlen(all_equal), all_equal, strlen(all_equal)) == 0);
    banked_map(BANKS, last_at - right);
    CHECK(check(HEALDRIP_REPORT_LENGTH(BANKS)) > 0);
    banked_map(BANKS, last_at - right + 1);
    refused = check(ROOM);
    CHECK(HEALDRIP_NUMBER(refused) == 16 && HEALDRIP_TABLE(refused) == 5 && HEALDRIP_ROW(refused) == BANKS - 1);

    /* A line as long as a line can be, and a last line with the widest rows and address. */
    const char *widest = UPPER_NAMES "989 989 2 1024 1024 1024 1024\n" LOWER_NAMES "2 980099 0 1 989 989 36028797018570752\n";
    widest_map();
    CHECK(text_length < TEXT_ROOM);
    int64_t length = check(HEALDRIP_REPORT_LENGTH(1));
    CHECK(length == (int64_t)strlen(widest) && memcmp(report, widest, strlen(widest)) == 0);
    refused = check(strlen(widest) - 1);
    CHECK(HEALDRIP_NUMBER(refused) == 11 && HEALDRIP_TABLE(refused) == 7 && HEALDRIP_ROW(refused) == 0);
    return 0;
}
