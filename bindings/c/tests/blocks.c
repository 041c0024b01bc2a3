// Blocks and logs: the words that document 01's examples give, each refusal of a block, the search, the polarity and the listing.
#include "check.h"

// ---- Blocks of any source bits ----

// Table 20-XIV: for bits 25 to 30, whether Q stands in the row (else P), and the source bits.
static const struct { bool q; uint8_t bits[16]; } rows[6] = {
    {false, {1, 2, 3, 5, 6, 10, 11, 12, 13, 14, 17, 18, 20, 23}},
    {true, {2, 3, 4, 6, 7, 11, 12, 13, 14, 15, 18, 19, 21, 24}},
    {false, {1, 3, 4, 5, 7, 8, 12, 13, 14, 15, 16, 19, 20, 22}},
    {true, {2, 4, 5, 6, 8, 9, 13, 14, 15, 16, 17, 20, 21, 23}},
    {true, {1, 3, 5, 6, 7, 9, 10, 14, 15, 16, 17, 18, 21, 22, 24}},
    {false, {3, 5, 6, 8, 9, 10, 11, 13, 15, 19, 22, 23, 24}},
};

// Writes the 30 bits of a word, after the two bits before it, for its 24 source bits.
static void encode_word(const uint8_t *source, uint8_t *word) {
    uint8_t p = word[-2], q = word[-1];
    for (int i = 0; i < 24; i++) word[i] = source[i] ^ q;
    for (int row = 0; row < 6; row++) {
        uint8_t bit = rows[row].q ? q : p;
        for (int i = 0; rows[row].bits[i] != 0; i++) bit ^= source[rows[row].bits[i] - 1];
        word[24 + row] = bit;
    }
}

static void encode(const uint8_t source[240], uint8_t pair, uint8_t block[LNAV_BLOCK]) {
    block[0] = block[1] = pair;
    for (int word = 0; word < 10; word++) encode_word(source + 24 * word, block + 2 + 30 * word);
}

// Encodes with the fillers that let words 2 and 10 end like the start pair.
static void encode_filled(uint8_t source[240], uint8_t pair, uint8_t block[LNAV_BLOCK]) {
    for (int fillers = 0; fillers < 16; fillers++) {
        source[46] = fillers & 1;
        source[47] = fillers >> 1 & 1;
        source[238] = fillers >> 2 & 1;
        source[239] = fillers >> 3 & 1;
        encode(source, pair, block);
        if (all_are(block + 60, 2, pair) && all_are(block + 300, 2, pair)) return;
    }
}

static void put_bits(uint8_t *bits, int width, unsigned value) {
    for (int i = 0; i < width; i++) bits[i] = value >> (width - 1 - i) & 1;
}

// The source bits of a block with zeros in words 3 to 10.
static void plain_source(unsigned preamble, unsigned count, unsigned subframe, uint8_t source[240]) {
    memset(source, 0, 240);
    put_bits(source, 8, preamble);
    put_bits(source + 24, 17, count);
    put_bits(source + 43, 3, subframe);
}

static bool shows(const uint8_t *bits, const char *digits) {
    for (size_t i = 0; digits[i] != '\0'; i++)
        if (bits[i] != digits[i] - '0') return false;
    return true;
}

// ---- The tests ----

// Document 01's example log: five zeros, then the upright subframe 1 with all fields but the subframe number 0.
static uint8_t example[5 + LNAV_BLOCK];

static void make_example(void) {
    values_t values;
    plain(LNAV_SUBFRAME_1, values);
    ACCEPTED(lnav_write(LNAV_SUBFRAME_1, values, false, example + 5, LNAV_BLOCK));
}

// The words that document 01's examples give, by subframes 1 whose only field is a week: bit 1 of word 3 is 512, bit 3 is 128, bit 8 is 4.
static void test_words(void) {
    static const struct { int64_t week; int word; const char *bits; } cases[] = {
        {0, 1, "10001011" "0000000000000000" "010010"},
        {0, 2, "0000000000000000000" "001" "11" "010100"},
        {0, 3, "000000000000000000000000000000"},
        {512, 3, "100000000000000000000000" "101010"},
        {512, 4, "000000000000000000000000" "101001"},
        {128, 3, "001000000000000000000000" "111011"},
        {128, 4, "111111111111111111111111111111"},
        {4, 3, "000000010000000000000000" "001101"},
        {4, 4, "111111111111111111111111" "010110"},
    };
    for (size_t i = 0; i < sizeof cases / sizeof cases[0]; i++) {
        values_t values;
        uint8_t block[LNAV_BLOCK];
        plain(LNAV_SUBFRAME_1, values);
        values[WEEK] = cases[i].week;
        ACCEPTED(lnav_write(LNAV_SUBFRAME_1, values, false, block, sizeof block));
        CHECK(shows(block + 2 + 30 * (cases[i].word - 1), cases[i].bits));
    }
}

// The bits of TGD are the last eight source bits of word 7; with zeros before them they are received as they are.
static void test_tgd_bits(void) {
    static const struct { int64_t tgd; const char *bits; } cases[] = {{-128, "10000000"}, {127, "01111111"}};
    for (int i = 0; i < 2; i++) {
        values_t values, read;
        uint8_t block[LNAV_BLOCK];
        plain(LNAV_SUBFRAME_1, values);
        values[TGD] = cases[i].tgd;
        ACCEPTED(lnav_write(LNAV_SUBFRAME_1, values, false, block, sizeof block));
        CHECK(shows(block + 2 + 6 * 30 + 16, cases[i].bits));
        ACCEPTED(lnav_read(block, sizeof block, 0, read).answer);
        CHECK(read[TGD] == cases[i].tgd);
    }
}

static void test_short_and_long_logs(void) {
    ANSWERS(lnav_check(zeros, LNAV_BLOCK, 0), 6, 0);
    ANSWERS(lnav_check(zeros, LNAV_LONGEST_LOG, LNAV_LONGEST_LOG - LNAV_BLOCK), 6, 0);
    ANSWERS(lnav_check(zeros, 0, 0), 3, 0);
    ANSWERS(lnav_check(zeros, LNAV_BLOCK - 1, 0), 3, 0);
    ANSWERS(lnav_check(zeros, LNAV_BLOCK, 1), 3, 1);
    ANSWERS(lnav_check(zeros, LNAV_LONGEST_LOG, SIZE_MAX), 3, SIZE_MAX);
    ANSWERS(lnav_check(zeros, LNAV_LONGEST_LOG + 1, 0), 1, LNAV_LONGEST_LOG + 1);
    ANSWERS(lnav_check(zeros, LNAV_LONGEST_LOG + 1, SIZE_MAX), 1, LNAV_LONGEST_LOG + 1);
}

static void test_damaged_blocks(void) {
    uint8_t log[sizeof example];
    ACCEPTED(lnav_check(example, sizeof example, 5));
    for (size_t i = 0; i < LNAV_BLOCK; i++) {
        memcpy(log, example, sizeof log);
        log[5 + i] ^= 1;
        if (i < 2) ANSWERS(lnav_check(log, sizeof log, 5), 4, 5);
        else ANSWERS(lnav_check(log, sizeof log, 5), 5, (i - 2) / 30 + 1);
    }
    memcpy(log, example, sizeof log);
    log[4] = 2;
    ACCEPTED(lnav_check(log, sizeof log, 5));
    log[5] = 1;
    log[5 + 301] = 255;
    ANSWERS(lnav_check(log, sizeof log, 5), 2, 5 + 301);
    log[5 + 100] = 2;
    ANSWERS(lnav_check(log, sizeof log, 5), 2, 5 + 100);
    ANSWERS(lnav_check(log, sizeof log, 6), 3, 6);
}

static void test_wrong_fields(void) {
    static const struct { unsigned preamble, count, subframe; uint8_t number; size_t detail; } cases[] = {
        {0x8b, 0, 1, 0, 0},         {0x8b, 100799, 5, 0, 0},      {0x0b, 0, 1, 6, 0},      {0x74, 0, 1, 6, 0},
        {0x8b, 0, 0, 8, 0},         {0x8b, 0, 6, 8, 6},           {0x8b, 0, 7, 8, 7},      {0x8b, 100800, 1, 9, 100800},
        {0x8b, 131071, 1, 9, 131071}, {0x8b, 100800, 0, 8, 0},    {0x8a, 100800, 0, 6, 0},
    };
    for (size_t i = 0; i < sizeof cases / sizeof cases[0]; i++)
        for (uint8_t pair = 0; pair < 2; pair++) {
            uint8_t source[240], block[LNAV_BLOCK];
            plain_source(cases[i].preamble, cases[i].count, cases[i].subframe, source);
            encode_filled(source, pair, block);
            ANSWERS(lnav_check(block, sizeof block, 0), cases[i].number, cases[i].detail);
        }
}

static void test_wrong_fillers(void) {
    for (uint8_t pair = 0; pair < 2; pair++) {
        uint8_t source[240], block[LNAV_BLOCK];
        plain_source(0x8b, 0, 1, source);
        encode_filled(source, pair, block);
        source[239] ^= 1;
        encode(source, pair, block);
        ANSWERS(lnav_check(block, sizeof block, 0), 7, 10);
        source[47] ^= 1;
        encode(source, pair, block);
        ANSWERS(lnav_check(block, sizeof block, 0), 7, 2);
    }
}

static void test_find(void) {
    struct lnav_found found = lnav_find(example, sizeof example, 0);
    ACCEPTED(found.answer);
    CHECK(found.place == 5);
    CHECK(lnav_find(example, sizeof example, 5).place == 5);
    static const size_t refused[] = {6, sizeof example, SIZE_MAX};
    for (int i = 0; i < 3; i++) {
        found = lnav_find(example, sizeof example, refused[i]);
        ANSWERS(found.answer, 10, refused[i]);
        CHECK(found.place == 0);
    }
    ANSWERS(lnav_find(zeros, 0, 0).answer, 10, 0);
    ANSWERS(lnav_find(zeros, LNAV_LONGEST_LOG, 0).answer, 10, 0);
    ANSWERS(lnav_find(zeros, LNAV_LONGEST_LOG + 1, 7).answer, 1, LNAV_LONGEST_LOG + 1);
}

// The polarity of the example and of its inverse, and at every other place the refusal of the block check, also where the bits are 1.
static void test_inverted(void) {
    uint8_t log[sizeof example];
    for (uint8_t flip = 0; flip < 2; flip++) {
        for (size_t i = 0; i < sizeof log; i++) log[i] = example[i] ^ flip;
        struct lnav_polarity polarity = lnav_inverted(log, sizeof log, 5);
        ACCEPTED(polarity.answer);
        CHECK(polarity.inverted == flip);
        for (size_t i = 0; i <= sizeof log; i++) {
            if (i == 5) continue;
            struct lnav_answer answer = lnav_check(log, sizeof log, i);
            polarity = lnav_inverted(log, sizeof log, i);
            ANSWERS(polarity.answer, answer.number, answer.detail);
            CHECK(answer.number != 0 && !polarity.inverted);
        }
    }
    log[5 + 301] = 2;
    ANSWERS(lnav_inverted(log, sizeof log, 5).answer, 2, 5 + 301);
    ANSWERS(lnav_inverted(log, sizeof log, SIZE_MAX).answer, 3, SIZE_MAX);
    ANSWERS(lnav_inverted(zeros, LNAV_LONGEST_LOG + 1, 0).answer, 1, LNAV_LONGEST_LOG + 1);
}

static void test_list(void) {
    static const char header[] = "place\tid\tcount\tpolarity\n";
    uint8_t inverted[sizeof example];
    for (size_t i = 0; i < sizeof example; i++) inverted[i] = example[i] ^ 1;
    lists(example, sizeof example, "place\tid\tcount\tpolarity\n5\t1\t0\tU\n", HERE);
    lists(inverted, sizeof inverted, "place\tid\tcount\tpolarity\n5\t1\t0\tI\n", HERE);
    lists(zeros, 0, header, HERE);
    lists(zeros, LNAV_LONGEST_LOG, header, HERE);
    uint8_t text[LNAV_LISTING];
    memset(text, 7, sizeof text);
    struct lnav_listing listing = lnav_list(zeros, LNAV_LONGEST_LOG + 1, text);
    ANSWERS(listing.answer, 1, LNAV_LONGEST_LOG + 1);
    CHECK(listing.length == 0);
    CHECK(all_are(text, sizeof text, 7));
}

void test_blocks(void) {
    make_example();
    test_words();
    test_tgd_bits();
    test_short_and_long_logs();
    test_damaged_blocks();
    test_wrong_fields();
    test_wrong_fillers();
    test_find();
    test_inverted();
    test_list();
}
