// A recording, whose path the build gives as RECORDING: 40 blocks, 300 apart, of satellite 5.
#include "check.h"

enum { RECORDED = 40, RECORDING_LENGTH = 300 * RECORDED + 2 };
static uint8_t recording[RECORDING_LENGTH + 1];

static void read_recording(void) {
    FILE *file = fopen(RECORDING, "rb");
    size_t length = file != NULL ? fread(recording, 1, sizeof recording, file) : 0;
    CHECK(length == RECORDING_LENGTH);
    if (file != NULL) fclose(file);
}

// Each block is found after the one before, and is the same when it is read and written again.
static void test_recorded_blocks(void) {
    char text[LNAV_LISTING] = "place\tid\tcount\tpolarity\n";
    for (size_t i = 0; i < RECORDED; i++) {
        size_t place = 300 * i;
        values_t values;
        uint8_t block[LNAV_BLOCK];
        CHECK(lnav_find(recording, RECORDING_LENGTH, i == 0 ? 0 : place - 299).place == place);
        struct lnav_reading reading = lnav_read(recording, RECORDING_LENGTH, place, values);
        ACCEPTED(reading.answer);
        CHECK(values[COUNT] == (int64_t)(17995 + i) && values[SUBFRAME] == (int64_t)((i + 4) % 5 + 1));
        bool inverted = lnav_inverted(recording, RECORDING_LENGTH, place).inverted;
        ACCEPTED(lnav_write(reading.kind, values, inverted, block, sizeof block));
        CHECK(memcmp(block, recording + place, sizeof block) == 0);
        sprintf(text + strlen(text), "%zu\t%zu\t%zu\tU\n", place, (i + 4) % 5 + 1, 17995 + i);
    }
    lists(recording, RECORDING_LENGTH, text, HERE);
}

// The sets of the recording: one of issue 47 from its fourth block on, one of issue 48 from its ninth on.
static void test_recorded_sets(void) {
    size_t places[RECORDED], satellites[RECORDED];
    for (size_t i = 0; i < RECORDED; i++) {
        places[i] = 300 * i;
        satellites[i] = 5;
    }
    for (size_t fed = 0; fed <= RECORDED; fed++) {
        values_t set[3];
        struct lnav_answer answer =
            lnav_set(recording, RECORDING_LENGTH, places, fed, satellites, fed, 5, set[0], set[1], set[2]);
        if (fed < 4) ANSWERS(answer, 17, fed < 2 ? 1 : fed);
        else if (fed == 7 || fed == 8) ANSWERS(answer, 18, 0);
        else {
            ACCEPTED(answer);
            CHECK(set[0][IODC_LOW] == (fed < 7 ? 47 : 48));
            CHECK(set[1][IODE_OF_2] == set[0][IODC_LOW] && set[2][IODE_OF_3] == set[0][IODC_LOW]);
        }
    }
    values_t values;
    ACCEPTED(lnav_almanac(recording, RECORDING_LENGTH, places, RECORDED, satellites, RECORDED, 24, values));
    CHECK(values[COUNT] == 17995 && values[ID] == 24 && values[8] == 16158);
    ANSWERS(lnav_almanac(recording, RECORDING_LENGTH, places, RECORDED, satellites, RECORDED, 7, values), 20, 0);
    ANSWERS(lnav_utc_page(recording, RECORDING_LENGTH, places, RECORDED, satellites, RECORDED, values), 20, 0);
}

void test_recording(void) {
    read_recording();
    test_recorded_blocks();
    test_recorded_sets();
}
