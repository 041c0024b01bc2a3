// Histories of feeds, and the sets and pages after them.
#include "check.h"

// Blocks for the histories, one after the other in a log. All are of issue 7, but for the one named for issue 8.
enum stored { ONE, TWO, THREE, TWO_OF_8, UNWELL, WELL, OTHER_IODC, PAGE, NEWER_PAGE, UTC, NEWER_UTC, OTHER, STORED };

static const struct { uint8_t kind; struct { int index; int64_t value; } set[2]; } stored[STORED] = {
    [ONE] = {1, {{IODC_LOW, 7}}},
    [TWO] = {2, {{IODE_OF_2, 7}}},
    [THREE] = {3, {{IODE_OF_3, 7}}},
    [TWO_OF_8] = {2, {{IODE_OF_2, 8}}},
    [UNWELL] = {1, {{IODC_LOW, 7}, {HEALTH, 33}}},
    [WELL] = {1, {{IODC_LOW, 7}, {HEALTH, 31}}},
    [OTHER_IODC] = {1, {{IODC_LOW, 7}, {IODC_HIGH, 3}}},
    [PAGE] = {4, {{COUNT, 1}}},
    [NEWER_PAGE] = {4, {{COUNT, 2}}},
    [UTC] = {5, {{COUNT, 1}}},
    [NEWER_UTC] = {5, {{COUNT, 2}}},
    [OTHER] = {6, {{COUNT, 1}}},
};

static values_t stored_values[STORED];
static uint8_t stored_log[STORED * LNAV_BLOCK];

static void make_stored(void) {
    for (int i = 0; i < STORED; i++) {
        plain(stored[i].kind, stored_values[i]);
        for (int s = 0; s < 2; s++)
            if (stored[i].set[s].index != 0) stored_values[i][stored[i].set[s].index] = stored[i].set[s].value;
        uint8_t *block = stored_log + i * LNAV_BLOCK;
        ACCEPTED(lnav_write(stored[i].kind, stored_values[i], i % 2, block, LNAV_BLOCK));
    }
}

// A history over the stored blocks.
struct history {
    size_t places[16], satellites[16], length;
};

static void feed(struct history *history, enum stored block, size_t satellite) {
    history->places[history->length] = block * LNAV_BLOCK;
    history->satellites[history->length] = satellite;
    history->length++;
}

static struct lnav_answer ask_set(const struct history *h, size_t satellite, values_t set[3]) {
    return lnav_set(stored_log, sizeof stored_log, h->places, h->length, h->satellites, h->length, satellite, set[0], set[1], set[2]);
}

static struct lnav_answer ask_almanac(const struct history *h, size_t id, values_t values) {
    return lnav_almanac(stored_log, sizeof stored_log, h->places, h->length, h->satellites, h->length, id, values);
}

static struct lnav_answer ask_utc(const struct history *h, values_t values) {
    return lnav_utc_page(stored_log, sizeof stored_log, h->places, h->length, h->satellites, h->length, values);
}

// The set of the satellite is refused, and its values stay.
static void set_refused(const struct history *h, size_t satellite, unsigned number, size_t detail, const char *where) {
    values_t set[3];
    for (int i = 0; i < 3; i++) set_all(set[i], -7);
    answers(ask_set(h, satellite, set), number, detail, "lnav_set", where);
    for (int i = 0; i < 3; i++) check(all_values_are(set[i], -7), "the values stay", where);
}

// The set of satellite 5 is given: these three blocks.
static void set_given(const struct history *h, enum stored one, enum stored two, enum stored three, const char *where) {
    values_t set[3];
    answers(ask_set(h, 5, set), 0, 0, "lnav_set", where);
    check(same_values(set[0], stored_values[one]), "subframe 1", where);
    check(same_values(set[1], stored_values[two]), "subframe 2", where);
    check(same_values(set[2], stored_values[three]), "subframe 3", where);
}

static void test_set(void) {
    struct history h = {.length = 0};
    set_refused(&h, 5, 17, 1, HERE);
    feed(&h, THREE, 5);
    set_refused(&h, 5, 17, 1, HERE);
    feed(&h, ONE, 5);
    set_refused(&h, 5, 17, 2, HERE);
    feed(&h, TWO, 5);
    set_given(&h, ONE, TWO, THREE, HERE);
    feed(&h, UNWELL, 5);
    set_refused(&h, 5, 19, 33, HERE);
    feed(&h, TWO_OF_8, 5);
    set_refused(&h, 5, 18, 0, HERE);
    feed(&h, WELL, 5);
    set_refused(&h, 5, 18, 0, HERE);
    feed(&h, TWO, 5);
    set_given(&h, WELL, TWO, THREE, HERE);
    feed(&h, OTHER_IODC, 5);
    set_given(&h, OTHER_IODC, TWO, THREE, HERE);
    set_refused(&h, 6, 17, 1, HERE);
    set_refused(&h, 0, 13, 0, HERE);
    set_refused(&h, 33, 13, 33, HERE);
    set_refused(&h, SIZE_MAX, 13, SIZE_MAX, HERE);
}

// What changes nothing: other satellites, refused feeds, pages.
static void test_set_untouched(void) {
    struct history h = {.length = 0};
    feed(&h, ONE, 5);
    feed(&h, TWO, 5);
    set_refused(&h, 5, 17, 3, HERE);
    feed(&h, THREE, 5);
    feed(&h, UNWELL, 6);
    feed(&h, UNWELL, 0);
    feed(&h, UNWELL, 33);
    feed(&h, STORED, 5);
    feed(&h, UNWELL, 5);
    h.places[h.length - 1]++;
    feed(&h, PAGE, 5);
    feed(&h, UTC, 5);
    feed(&h, OTHER, 5);
    set_given(&h, ONE, TWO, THREE, HERE);
    set_refused(&h, 6, 17, 2, HERE);
}

// A history goes as far as both arrays go.
static void test_unequal_arrays(void) {
    static const size_t places[] = {ONE * LNAV_BLOCK, TWO * LNAV_BLOCK, THREE * LNAV_BLOCK, UNWELL * LNAV_BLOCK};
    static const size_t satellites[] = {5, 5, 5, 5};
    static const struct { size_t places, satellites; unsigned number; size_t detail; } cases[] = {
        {3, 3, 0, 0}, {4, 3, 0, 0}, {3, 4, 0, 0}, {4, 4, 19, 33}, {2, 4, 17, 3}, {4, 1, 17, 2}, {0, 4, 17, 1}, {4, 0, 17, 1},
    };
    for (size_t i = 0; i < sizeof cases / sizeof cases[0]; i++) {
        values_t a, b, c;
        ANSWERS(lnav_set(stored_log, sizeof stored_log, places, cases[i].places, satellites, cases[i].satellites, 5, a, b, c),
                cases[i].number, cases[i].detail);
    }
}

static void test_pages(void) {
    struct history h = {.length = 0};
    values_t values;
    set_all(values, -7);
    feed(&h, OTHER, 5);
    ANSWERS(ask_almanac(&h, 9, values), 20, 0);
    ANSWERS(ask_utc(&h, values), 20, 0);
    ANSWERS(ask_almanac(&h, 0, values), 13, 0);
    ANSWERS(ask_almanac(&h, 33, values), 13, 33);
    CHECK(all_values_are(values, -7));
    feed(&h, PAGE, 5);
    ACCEPTED(ask_almanac(&h, 9, values));
    CHECK(same_values(values, stored_values[PAGE]));
    feed(&h, NEWER_PAGE, 32);
    ACCEPTED(ask_almanac(&h, 9, values));
    CHECK(same_values(values, stored_values[NEWER_PAGE]));
    ANSWERS(ask_almanac(&h, 5, values), 20, 0);
    feed(&h, NEWER_UTC, 5);
    feed(&h, UTC, 1);
    feed(&h, NEWER_UTC, 0);
    ACCEPTED(ask_utc(&h, values));
    CHECK(same_values(values, stored_values[UTC]));
}

static void test_feed(void) {
    for (size_t i = 0; i < STORED; i++) ACCEPTED(lnav_feed(stored_log, sizeof stored_log, i * LNAV_BLOCK, 1 + 31 * (i % 2)));
    ANSWERS(lnav_feed(stored_log, sizeof stored_log, 0, 0), 13, 0);
    ANSWERS(lnav_feed(stored_log, sizeof stored_log, 0, 33), 13, 33);
    ANSWERS(lnav_feed(zeros, LNAV_LONGEST_LOG + 1, 0, SIZE_MAX), 13, SIZE_MAX);
    ANSWERS(lnav_feed(zeros, LNAV_LONGEST_LOG + 1, 0, 5), 1, LNAV_LONGEST_LOG + 1);
    ANSWERS(lnav_feed(zeros, LNAV_BLOCK - 1, 0, 5), 3, 0);
    ANSWERS(lnav_feed(zeros, LNAV_BLOCK, 0, 5), 6, 0);
}

void test_histories(void) {
    make_stored();
    test_set();
    test_set_untouched();
    test_unequal_arrays();
    test_pages();
    test_feed();
}
