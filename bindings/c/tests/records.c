// Records: what is written is read again, and the writer and the reader refuse what they have to.
#include "check.h"

static void test_round_trip(uint8_t kind, const values_t values) {
    uint8_t blocks[2][LNAV_BLOCK + 8];
    memset(blocks, 7, sizeof blocks);
    for (int inverted = 0; inverted < 2; inverted++) {
        uint8_t *block = blocks[inverted];
        values_t read;
        set_all(read, -7);
        ACCEPTED(lnav_write(kind, values, inverted, block, sizeof blocks[0]));
        CHECK(all_are(block + LNAV_BLOCK, 8, 7));
        CHECK(lnav_inverted(block, LNAV_BLOCK, 0).inverted == inverted);
        struct lnav_reading reading = lnav_read(block, LNAV_BLOCK, 0, read);
        ACCEPTED(reading.answer);
        CHECK(reading.kind == kind);
        CHECK(same_values(read, values));
    }
    for (int i = 0; i < LNAV_BLOCK; i++) blocks[1][i] ^= 1;
    CHECK(memcmp(blocks[0], blocks[1], LNAV_BLOCK) == 0);
}

static void test_round_trips(void) {
    for (int k = 0; k < KINDS; k++)
        for (enum choice choice = ZEROS; choice < CHOICES; choice++) {
            values_t values;
            record_of(&kinds[k], choice, values);
            test_round_trip(kinds[k].number, values);
        }
}

// The writer refuses the record by 11 and leaves the buffer, also a short one.
static void refused_by_11(uint8_t kind, const values_t values, const char *where) {
    uint8_t block[LNAV_BLOCK];
    memset(block, 7, sizeof block);
    answers(lnav_write(kind, values, false, block, sizeof block), 11, 0, "lnav_write", where);
    answers(lnav_write(kind, values, true, block, LNAV_BLOCK - 1), 11, 0, "lnav_write", where);
    check(all_are(block, sizeof block, 7), "the buffer stays", where);
}
#define REFUSED_BY_11(kind, values) refused_by_11((kind), (values), HERE)

// One value beyond its field, or not 0 after the last field; also where its low 32 bits are those of a value in the field.
static void test_values_outside(void) {
    for (int k = 0; k < KINDS; k++)
        for (int i = 0; i < LNAV_VALUES; i++) {
            values_t values;
            plain(kinds[k].number, values);
            int width = width_of(&kinds[k], i);
            int64_t above = i == COUNT ? 100800 : width == 0 ? 1 : highest(width) + 1;
            int64_t old = values[i];
            int64_t outside[] = {above, lowest(width) - 1, old + ((int64_t)1 << 32), old - ((int64_t)1 << 32), INT64_MIN, INT64_MAX};
            for (int o = 0; o < 6; o++) {
                values[i] = outside[o];
                REFUSED_BY_11(kinds[k].number, values);
            }
        }
}

static void test_wrong_kinds(void) {
    static const struct { uint8_t kind; int64_t subframe, data_id, id; bool taken; } cases[] = {
        {1, 2, 0, 0, false},  {2, 3, 0, 0, false},  {3, 1, 0, 0, false},  {1, 0, 0, 0, false},   {4, 3, 1, 9, false},
        {4, 6, 1, 9, false},  {4, 4, 1, 9, true},   {4, 5, 1, 0, false},  {4, 5, 1, 33, false},  {4, 5, 0, 9, false},
        {4, 5, 1, 1, true},   {4, 5, 1, 32, true},  {5, 5, 1, 56, false}, {5, 4, 2, 56, false},  {5, 4, 1, 55, false},
        {6, 3, 2, 9, false},  {6, 6, 2, 9, false},  {6, 5, 1, 9, false},  {6, 4, 1, 32, false},  {6, 4, 1, 56, false},
        {6, 5, 1, 56, true},  {6, 4, 1, 0, true},   {6, 5, 2, 9, true},   {0, 1, 0, 0, false},   {7, 4, 2, 9, false},
        {255, 1, 0, 0, false},
    };
    for (size_t i = 0; i < sizeof cases / sizeof cases[0]; i++) {
        values_t values = {0};
        values[SUBFRAME] = cases[i].subframe;
        values[DATA_ID] = cases[i].data_id;
        values[ID] = cases[i].id;
        if (cases[i].taken) test_round_trip(cases[i].kind, values);
        else REFUSED_BY_11(cases[i].kind, values);
    }
}

static void test_short_buffers(void) {
    values_t values;
    uint8_t block[LNAV_BLOCK];
    plain(LNAV_SUBFRAME_1, values);
    memset(block, 7, sizeof block);
    ANSWERS(lnav_write(LNAV_SUBFRAME_1, values, false, block, 0), 12, 0);
    ANSWERS(lnav_write(LNAV_SUBFRAME_1, values, true, block, LNAV_BLOCK - 1), 12, LNAV_BLOCK - 1);
    CHECK(all_are(block, sizeof block, 7));
}

static void test_refused_reading(void) {
    values_t values;
    set_all(values, -7);
    struct lnav_reading reading = lnav_read(zeros, LNAV_BLOCK, 0, values);
    ANSWERS(reading.answer, 6, 0);
    CHECK(reading.kind == 0);
    ANSWERS(lnav_read(zeros, LNAV_BLOCK - 1, 0, values).answer, 3, 0);
    ANSWERS(lnav_read(zeros, LNAV_LONGEST_LOG + 1, 0, values).answer, 1, LNAV_LONGEST_LOG + 1);
    CHECK(all_values_are(values, -7));
}

void test_records(void) {
    test_round_trips();
    test_values_outside();
    test_wrong_kinds();
    test_short_buffers();
    test_refused_reading();
}
