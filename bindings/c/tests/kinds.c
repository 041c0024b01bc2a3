// The kinds of record, and records of each.
#include "check.h"

static const int header_widths[FIRST] = {14, 2, 17, 1, 1, 3};

const struct kind kinds[KINDS] = {
    {LNAV_SUBFRAME_1, 1, 0, 0, {10, 2, 4, 6, 2, 1, 23, 24, 24, 16, -8, 8, 16, -8, -16, -22}},
    {LNAV_SUBFRAME_2, 2, 0, 0, {8, -16, -16, -32, -16, 32, -16, 32, 16, 1, 5}},
    {LNAV_SUBFRAME_3, 3, 0, 0, {-16, -32, -16, -32, -16, -32, -24, 8, -14}},
    {LNAV_ALMANAC_PAGE, 5, 1, 9, {2, 6, 16, 8, -16, -16, 8, 24, -24, -24, -24, -11, -11}},
    {LNAV_UTC_PAGE, 4, 1, 56, {2, 6, -8, -8, -8, -8, -8, -8, -8, -8, -24, -32, 8, 8, -8, 8, 8, -8, 14}},
    {LNAV_OTHER_PAGE, 4, 2, 33, {2, 6, 16, 24, 24, 24, 24, 24, 24, 22}},
};

int width_of(const struct kind *kind, int i) { return i < FIRST ? header_widths[i] : kind->widths[i - FIRST]; }

int64_t lowest(int width) { return width < 0 ? -((int64_t)1 << (-width - 1)) : 0; }

int64_t highest(int width) { return ((int64_t)1 << (width < 0 ? -width - 1 : width)) - 1; }

static int64_t chosen(enum choice choice, int width, int i) {
    switch (choice) {
    case ONES: return width < 0 ? -1 : highest(width);
    case LOWEST: return lowest(width);
    case HIGHEST: return highest(width);
    case MIXED: return lowest(width) + (int64_t)(1103515245u * (unsigned)(i + 1)) % (highest(width) - lowest(width) + 1);
    default: return 0;
    }
}

void record_of(const struct kind *kind, enum choice choice, values_t values) {
    set_all(values, 0);
    for (int i = 0; width_of(kind, i) != 0; i++) values[i] = chosen(choice, width_of(kind, i), i);
    if (values[COUNT] > 100799) values[COUNT] = 100799;
    values[SUBFRAME] = kind->subframe;
    if (kind->number < LNAV_ALMANAC_PAGE) return;
    values[DATA_ID] = kind->data_id;
    values[ID] = kind->id;
}

void plain(uint8_t kind, values_t values) { record_of(&kinds[kind - 1], ZEROS, values); }
