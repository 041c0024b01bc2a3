// What the parts of the tests share: the count of checks, values and kinds of record.
#ifndef CHECK_H
#define CHECK_H

#include "../lnav.h"

#include <stdio.h>
#include <string.h>

// ---- Checks: check.c ----

extern unsigned checks, failed;

// Each counts one check; it is told what is checked, and where that stands.
void check(bool holds, const char *what, const char *where);
void answers(struct lnav_answer answer, unsigned number, size_t detail, const char *what, const char *where);

#define TEXT_OF(tokens) #tokens
#define TEXT(macro) TEXT_OF(macro)
#define HERE __FILE__ ":" TEXT(__LINE__)

#define CHECK(condition) check((condition), #condition, HERE)
#define ANSWERS(answer, number, detail) answers((answer), (number), (detail), #answer, HERE)
#define ACCEPTED(answer) ANSWERS(answer, 0, 0)

// The listing of the log is the expected one.
void lists(const uint8_t *log, size_t length, const char *expected, const char *where);

bool all_are(const uint8_t *bytes, size_t length, uint8_t byte);

extern uint8_t zeros[LNAV_LONGEST_LOG + 1];

typedef int64_t values_t[LNAV_VALUES];

bool same_values(const values_t a, const values_t b);
void set_all(values_t values, int64_t value);
bool all_values_are(const values_t values, int64_t value);

// The indices of the values that the tests name.
enum { COUNT = 2, SUBFRAME = 5, FIRST = 6, DATA_ID = 6, ID = 7 };
enum { WEEK = 6, URA = 8, HEALTH = 9, IODC_HIGH = 10, TGD = 16, IODC_LOW = 17, AF2 = 19, AF1 = 20, AF0 = 21 };
enum { IODE_OF_2 = 6, IODE_OF_3 = 13 };
enum { DTLS = 20, WNLSF = 21, DN = 22, DTLSF = 23 };

// ---- Kinds of record: kinds.c ----

// A kind: its subframe number, the IDs where it is a page, and the widths of its fields, negative where signed, then zeros.
struct kind {
    uint8_t number;
    int64_t subframe, data_id, id;
    int widths[LNAV_VALUES - FIRST + 1];
};

enum { KINDS = LNAV_OTHER_PAGE };
extern const struct kind kinds[KINDS];

// The width of value i; 0 after the last field.
int width_of(const struct kind *kind, int i);
int64_t lowest(int width);
int64_t highest(int width);

// What stands in a field: 0, all bits 1, the lowest value, the highest, or a number of its own.
enum choice { ZEROS, ONES, LOWEST, HIGHEST, MIXED, CHOICES };

// A record that the writer takes.
void record_of(const struct kind *kind, enum choice choice, values_t values);

// The record of zeros of a kind, but for its subframe number and IDs.
void plain(uint8_t kind, values_t values);

// ---- The parts: each in the file of its name ----

void test_blocks(void);
void test_records(void);
void test_questions(void);
void test_histories(void);
void test_recording(void);

#endif
