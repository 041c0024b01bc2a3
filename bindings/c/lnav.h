/* The C interface of the library: the GPS LNAV message, from raw bits to records and back. Document 01, the scope paper, decides what
 * every function answers; its numbers and details are those of `struct lnav_answer`. For x86-64 Linux.
 *
 * What the caller owes: a pointer is never null, also for an empty log, and points to at least the stated number of elements; a buffer
 * that a function writes overlaps no other argument. Nothing else is asked: every log, place, kind, value and number has an answer.
 * The functions keep no state and no memory between calls, and any thread may call them.
 *
 * A log has one byte, 0 or 1, for each received bit, oldest first. A place is an index in it. The block at a place is the 302 bytes
 * from there on. */
#ifndef LNAV_H
#define LNAV_H

#include <stdbool.h>
#include <stddef.h>
#include <stdint.h>

#ifdef __cplusplus
extern "C" {
#endif

/* The number of values of a record, the bytes of a block, the bytes of the listing's buffer and the bytes of the longest log that is
 * not refused. */
#define LNAV_VALUES 25
#define LNAV_BLOCK 302
#define LNAV_LISTING 4096
#define LNAV_LONGEST_LOG 65536

/* The kinds of record. A record is its kind and 25 values, the whole numbers that stand in the message. Values 0 to 5 are the header:
 *   message, reserved, count, flag18, flag19, subframe
 * From value 6 on stand the fields of the kind, and after them zeros:
 *   subframe 1    week, l2_code, ura, health, iodc_high, l2p_flag, reserved4, reserved5, reserved6, reserved7, tgd, iodc_low, toc,
 *                 af2, af1, af0
 *   subframe 2    iode, crs, delta_n, m0, cuc, e, cus, root_a, toe, fit, aodo
 *   subframe 3    cic, node, cis, i0, crc, perigee, node_rate, iode, idot
 *   almanac page  data_id, sv_id, e, toa, delta_i, node_rate, health, root_a, node, perigee, m0, af0, af1
 *   UTC page      data_id, id, alpha0, alpha1, alpha2, alpha3, beta0, beta1, beta2, beta3, a1, a0, tot, wnt, dtls, wnlsf, dn, dtlsf,
 *                 reserved10
 *   other page    data_id, id, reserved3, reserved4, reserved5, reserved6, reserved7, reserved8, reserved9, reserved10
 * A field that the message reserves is named for its word. Values that a caller gives may be any numbers: those that no record of the
 * kind has are refused by 11, as every record that the writer refuses. */
enum lnav_kind {
    LNAV_SUBFRAME_1 = 1,
    LNAV_SUBFRAME_2 = 2,
    LNAV_SUBFRAME_3 = 3,
    LNAV_ALMANAC_PAGE = 4,
    LNAV_UTC_PAGE = 5,
    LNAV_OTHER_PAGE = 6
};

/* Number 0 and detail 0: accepted. Else document 01's number of the refusal, and its detail. */
struct lnav_answer {
    uint8_t number;
    size_t detail;
};

/* The place of a block; 0 where refused. */
struct lnav_found {
    struct lnav_answer answer;
    size_t place;
};

/* Whether a block is inverted; false where refused. */
struct lnav_polarity {
    struct lnav_answer answer;
    bool inverted;
};

/* The kind of a record that was read; 0 where refused. */
struct lnav_reading {
    struct lnav_answer answer;
    uint8_t kind;
};

/* The length of a listing; 0 where refused. */
struct lnav_listing {
    struct lnav_answer answer;
    size_t length;
};

/* The clock terms, each exactly the field times its scale; 0 where refused. */
struct lnav_terms {
    struct lnav_answer answer;
    double tgd;
    double af0;
    double af1;
    double af2;
};

/* The accuracy in metres. Where `predicted` is false no prediction exists (URA index 15), and `metres` is 0; false and 0 where refused. */
struct lnav_range_accuracy {
    struct lnav_answer answer;
    bool predicted;
    double metres;
};

/* A UTC time of day; 0 where refused. */
struct lnav_time {
    struct lnav_answer answer;
    uint32_t hour;
    uint32_t minute;
    uint32_t second;
};

/* The block check: whether the block at the place is accepted, or refused by 1 to 9. */
struct lnav_answer lnav_check(const uint8_t *log, size_t length, size_t place);

/* The place of the first accepted block at or after the given place. Refused by 1, or by 10 where there is none. */
struct lnav_found lnav_find(const uint8_t *log, size_t length, size_t place);

/* Whether the block at the place is inverted: its start pair is 11, and 00 where it is upright. Refused as the block check refuses. */
struct lnav_polarity lnav_inverted(const uint8_t *log, size_t length, size_t place);

/* Reads the record of the block at the place. Refused as the block check refuses; the values then stay as they were. */
struct lnav_reading lnav_read(const uint8_t *log, size_t length, size_t place, int64_t values[LNAV_VALUES]);

/* Writes the block of a record, upright or inverted, into the first 302 bytes of the buffer; bytes after them stay as they were. Refused
 * by 11, or by 12 where the buffer is shorter; it then stays as it was. */
struct lnav_answer lnav_write(uint8_t kind, const int64_t values[LNAV_VALUES], bool inverted, uint8_t *block, size_t length);

/* Puts the listing of the log, a header line and a line for each accepted block, at the start of the buffer, and gives its length. There is
 * no zero byte after it; the bytes after it stay as they were. Refused by 1; the buffer then stays as it was. */
struct lnav_listing lnav_list(const uint8_t *log, size_t length, uint8_t text[LNAV_LISTING]);

/* The clock terms of a subframe 1. Refused by 11. */
struct lnav_terms lnav_clock_terms(const int64_t values[LNAV_VALUES]);

/* The accuracy for the URA index of a subframe 1. Refused by 11. */
struct lnav_range_accuracy lnav_accuracy(const int64_t values[LNAV_VALUES]);

/* The UTC time of day of a full GPS week and second of the week, by a UTC page. Refused by 11, 14, 15 or 16. */
struct lnav_time lnav_time_of_day(const int64_t values[LNAV_VALUES], uint32_t week, uint32_t second);

/* What a feed of the block at the place, for the satellite, answers: refused by 13, or as the block check refuses. */
struct lnav_answer lnav_feed(const uint8_t *log, size_t length, size_t place, size_t satellite);

/* The last three functions take a history and ask the collector: the blocks at places[i] of the log are fed for satellites[i], one after
 * the other, to the empty collector, as far as both arrays go. A refused feed changes nothing. Where the question is refused, the
 * values stay as they were. */

/* The latest subframes 1, 2 and 3 of the satellite. Refused by 13, 17, 18 or 19. */
struct lnav_answer lnav_set(const uint8_t *log, size_t length, const size_t *places, size_t places_length, const size_t *satellites,
                            size_t satellites_length, size_t satellite, int64_t subframe1[LNAV_VALUES],
                            int64_t subframe2[LNAV_VALUES], int64_t subframe3[LNAV_VALUES]);

/* The latest almanac page of the SV ID, whichever satellite sent it. Refused by 13 or 20. */
struct lnav_answer lnav_almanac(const uint8_t *log, size_t length, const size_t *places, size_t places_length, const size_t *satellites,
                                size_t satellites_length, size_t id, int64_t values[LNAV_VALUES]);

/* The latest UTC page. Refused by 20. */
struct lnav_answer lnav_utc_page(const uint8_t *log, size_t length, const size_t *places, size_t places_length,
                                 const size_t *satellites, size_t satellites_length, int64_t values[LNAV_VALUES]);

#ifdef __cplusplus
}
#endif

#endif
