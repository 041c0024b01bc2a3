// Counts the checks, and compares bytes, values and listings.
#include "check.h"

unsigned checks, failed;

uint8_t zeros[LNAV_LONGEST_LOG + 1];

void check(bool holds, const char *what, const char *where) {
    checks++;
    if (!holds) {
        failed++;
        printf("%s fails: %s\n", where, what);
    }
}

void answers(struct lnav_answer answer, unsigned number, size_t detail, const char *what, const char *where) {
    bool holds = answer.number == number && answer.detail == detail;
    check(holds, what, where);
    if (!holds) printf("  answered %u %zu, not %u %zu\n", answer.number, answer.detail, number, detail);
}

bool all_are(const uint8_t *bytes, size_t length, uint8_t byte) {
    for (size_t i = 0; i < length; i++)
        if (bytes[i] != byte) return false;
    return true;
}

bool same_values(const values_t a, const values_t b) { return memcmp(a, b, sizeof(values_t)) == 0; }

void set_all(values_t values, int64_t value) {
    for (int i = 0; i < LNAV_VALUES; i++) values[i] = value;
}

bool all_values_are(const values_t values, int64_t value) {
    values_t expected;
    set_all(expected, value);
    return same_values(values, expected);
}

void lists(const uint8_t *log, size_t length, const char *expected, const char *where) {
    uint8_t text[LNAV_LISTING];
    memset(text, 7, sizeof text);
    struct lnav_listing listing = lnav_list(log, length, text);
    size_t size = listing.length;
    answers(listing.answer, 0, 0, "lnav_list", where);
    check(size == strlen(expected) && memcmp(text, expected, size) == 0, "the listing", where);
    check(all_are(text + size, sizeof text - size, 7), "the rest of the buffer stays", where);
}
