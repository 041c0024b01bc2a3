// Tests the C interface: document 01's examples and refusals through every function of lnav.h, and a recording.
#include "check.h"

#include <stdlib.h>

static void test_layout(void) {
    CHECK(sizeof(struct lnav_answer) == 16 && offsetof(struct lnav_answer, number) == 0);
    CHECK(offsetof(struct lnav_answer, detail) == 8);
    CHECK(sizeof(struct lnav_found) == 24 && offsetof(struct lnav_found, place) == 16);
    CHECK(sizeof(struct lnav_polarity) == 24 && offsetof(struct lnav_polarity, inverted) == 16);
    CHECK(sizeof(struct lnav_reading) == 24 && offsetof(struct lnav_reading, kind) == 16);
    CHECK(sizeof(struct lnav_listing) == 24 && offsetof(struct lnav_listing, length) == 16);
    CHECK(sizeof(struct lnav_terms) == 48 && offsetof(struct lnav_terms, tgd) == 16);
    CHECK(offsetof(struct lnav_terms, af0) == 24 && offsetof(struct lnav_terms, af1) == 32);
    CHECK(offsetof(struct lnav_terms, af2) == 40);
    CHECK(sizeof(struct lnav_range_accuracy) == 32 && offsetof(struct lnav_range_accuracy, predicted) == 16);
    CHECK(offsetof(struct lnav_range_accuracy, metres) == 24);
    CHECK(sizeof(struct lnav_time) == 32 && offsetof(struct lnav_time, hour) == 16);
    CHECK(offsetof(struct lnav_time, minute) == 20 && offsetof(struct lnav_time, second) == 24);
}

int main(void) {
    test_layout();
    test_blocks();
    test_records();
    test_questions();
    test_histories();
    test_recording();
    printf("%u checks, %u failed\n", checks, failed);
    return failed == 0 ? EXIT_SUCCESS : EXIT_FAILURE;
}
