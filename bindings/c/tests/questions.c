// The questions to one record: clock terms, accuracy and the UTC time of day.
#include "check.h"

#include <math.h>

// The same double, with its sign.
static bool same_double(double a, double b) { return memcmp(&a, &b, sizeof a) == 0; }

static void test_clock_terms(void) {
    for (enum choice choice = ZEROS; choice < CHOICES; choice++) {
        values_t values;
        record_of(&kinds[0], choice, values);
        struct lnav_terms terms = lnav_clock_terms(values);
        ACCEPTED(terms.answer);
        CHECK(same_double(terms.tgd, ldexp((double)values[TGD], -31)));
        CHECK(same_double(terms.af0, ldexp((double)values[AF0], -31)));
        CHECK(same_double(terms.af1, ldexp((double)values[AF1], -43)));
        CHECK(same_double(terms.af2, ldexp((double)values[AF2], -55)));
    }
}

static void test_accuracy(void) {
    static const double metres[] = {2, 2.8, 4, 5.7, 8, 11.3, 16, 32, 64, 128, 256, 512, 1024, 2048, 4096, 0};
    for (int64_t ura = 0; ura < 16; ura++) {
        values_t values;
        plain(LNAV_SUBFRAME_1, values);
        values[URA] = ura;
        struct lnav_range_accuracy accuracy = lnav_accuracy(values);
        ACCEPTED(accuracy.answer);
        CHECK(accuracy.predicted == (ura < 15));
        CHECK(same_double(accuracy.metres, metres[ura]));
    }
}

// Clock terms and accuracy are refused by 11 where the writer would refuse, also for a field that they do not look at.
static void test_refused_clock(void) {
    static const struct { int index; int64_t value; } cases[] = {
        {WEEK, 1024}, {TGD, 128}, {TGD, -129}, {URA, 16}, {URA, -1}, {COUNT, 100800}, {SUBFRAME, 2}, {24, 1}, {WEEK, (int64_t)1 << 32},
    };
    for (size_t i = 0; i < sizeof cases / sizeof cases[0]; i++) {
        values_t values;
        record_of(&kinds[0], HIGHEST, values);
        values[cases[i].index] = cases[i].value;
        struct lnav_terms terms = lnav_clock_terms(values);
        ANSWERS(terms.answer, 11, 0);
        CHECK(same_double(terms.tgd, 0) && same_double(terms.af0, 0) && same_double(terms.af1, 0) && same_double(terms.af2, 0));
        struct lnav_range_accuracy accuracy = lnav_accuracy(values);
        ANSWERS(accuracy.answer, 11, 0);
        CHECK(!accuracy.predicted && same_double(accuracy.metres, 0));
    }
}

struct time_case {
    int64_t dtls, wnlsf, dn, dtlsf;
    uint32_t week, second;
    struct lnav_time expected;
};

// Board examples: the leap week of WNLSF 137, 81 and 79 at week 2000 shows by the offset, 0 before the leap moment and 1 from it on.
static const struct time_case time_cases[] = {
    {18, 137, 7, 18, 2000, 0, {{0, 0}, 23, 59, 42}},
    {0, 137, 7, 1, 2000, 0, {{0, 0}, 23, 59, 59}},
    {0, 81, 7, 1, 2000, 0, {{0, 0}, 23, 59, 59}},
    {0, 79, 7, 1, 2000, 0, {{0, 0}, 0, 0, 0}},
    {0, 80, 7, 1, 2000, 0, {{16, 0}, 0, 0, 0}},
    {17, 208, 1, 18, 2000, 86399, {{0, 0}, 23, 59, 42}},
    {17, 208, 1, 18, 2000, 86400, {{0, 0}, 23, 59, 42}},
    {17, 208, 1, 18, 2000, 86399 + 18, {{0, 0}, 23, 59, 59}},
    {18, 0, 1, 18, 0, 0, {{0, 0}, 23, 59, 42}},
    {-128, 255, 7, 127, 0, 0, {{0, 0}, 23, 57, 53}},
    {-128, 1, 7, 127, 0, 0, {{0, 0}, 0, 2, 8}},
    {0, 255, 7, 0, 8191, 604799, {{0, 0}, 23, 59, 59}},
    {0, 0, 1, 0, 8192, 0, {{14, 0}, 0, 0, 0}},
    {0, 0, 1, 0, 0, 604800, {{14, 0}, 0, 0, 0}},
    {0, 0, 0, 0, UINT32_MAX, UINT32_MAX, {{14, 0}, 0, 0, 0}},
    {0, 80, 0, 0, 2000, 0, {{15, 0}, 0, 0, 0}},
    {0, 0, 8, 0, 0, 0, {{15, 8}, 0, 0, 0}},
    {0, 0, 255, 0, 0, 0, {{15, 255}, 0, 0, 0}},
    {128, 0, 0, 0, 8192, 0, {{11, 0}, 0, 0, 0}},
    {0, 0, 1, -129, 0, 0, {{11, 0}, 0, 0, 0}},
    {0, 256, 1, 0, 0, 0, {{11, 0}, 0, 0, 0}},
};

static void test_time(void) {
    for (size_t i = 0; i < sizeof time_cases / sizeof time_cases[0]; i++) {
        const struct time_case *c = &time_cases[i];
        values_t values;
        plain(LNAV_UTC_PAGE, values);
        values[DTLS] = c->dtls;
        values[WNLSF] = c->wnlsf;
        values[DN] = c->dn;
        values[DTLSF] = c->dtlsf;
        struct lnav_time time = lnav_time_of_day(values, c->week, c->second);
        ANSWERS(time.answer, c->expected.answer.number, c->expected.answer.detail);
        CHECK(time.hour == c->expected.hour && time.minute == c->expected.minute && time.second == c->expected.second);
    }
    values_t values;
    plain(LNAV_ALMANAC_PAGE, values);
    ANSWERS(lnav_time_of_day(values, 0, 0).answer, 11, 0);
}

void test_questions(void) {
    test_clock_terms();
    test_accuracy();
    test_refused_clock();
    test_time();
}
