// The reserve engine for callers in C: five calls of the static library libc_interface.a.
//
// Amounts, premiums, bounds and figures are in ticks, ten thousand to a franc; factors and shares
// are parts of a million. States and years are counted from 0. Columns may be of any length and
// hold any numbers: a call checks them and refuses what is unfit. It writes only where it answers
// 0, but for the place of a fault in a sheet. It asks malloc for memory where it makes tables, and
// has given all of it back when it answers.
//
// The caller sees to it that no pointer is null, even where there are no entries, that each leads
// to as many entries as are told, that what a call writes to overlaps nothing else that it is
// handed, and that no call is made in a signal handler.
#ifndef FINEOCHRE_H
#define FINEOCHRE_H

#include <stddef.h>
#include <stdint.h>

#ifdef __cplusplus
extern "C" {
#endif

// What a call answers.
enum fineochre_answer {
    FINEOCHRE_DONE = 0,
    // a sheet: the first rule that it breaks
    FINEOCHRE_LINE_FEED = 2, // a line does not end within 40 bytes
    FINEOCHRE_FORM = 3,      // a line has not the letter or the fields of one that may stand there
    FINEOCHRE_NUMBER = 4,    // a field is not a number
    FINEOCHRE_RANGE = 5,     // a number is out of range
    FINEOCHRE_ROOM = 6,      // the columns are too short
    FINEOCHRE_ORDER = 7,     // a year or a move does not come after those before
    FINEOCHRE_ROW = 8,       // a row does not add up to a million
    // columns: the first rule that they break, those of the basis before that of the plan
    FINEOCHRE_SIZE = 9,     // the states, the years, or how many factors or shares there are
    FINEOCHRE_FACTOR = 10,  // a factor outside 1 to a million
    FINEOCHRE_SHARE = 11,   // a share outside 0 to a million, or a row that is not a million
    FINEOCHRE_PAYMENT = 12, // the plan's years, how many entries it has, or an entry out of range
    // a call
    FINEOCHRE_COURSE = 22,         // the column is too short for the course
    FINEOCHRE_UNFIT_PLACES = 253,  // not as many places to write to as premiums or bounds
    FINEOCHRE_UNFIT_PREMIUM = 254, // a premium outside 0 to 10,000,000,000 ticks
    FINEOCHRE_NO_MEMORY = 255      // no memory for the tables, whatever stands in the columns
};

// What fineochre_premiums writes for a bound that no premium reaches.
#define FINEOCHRE_NO_PREMIUM (-1)

// Numbers that are read, and how many there are.
struct fineochre_column {
    const int64_t *entries;
    size_t count;
};

// A basis of `states` states (2 to 8) and `years` years (1 to 120), and a plan of `plan_years`
// years (0 to 120). A plan always has places for eight states.
struct fineochre_columns {
    size_t states;
    size_t years;
    struct fineochre_column factors;  // of year t at t, 1 to a million; years
    struct fineochre_column shares;   // of the move from i to j in year t at
                                      // (t * states + i) * states + j; years * states * states.
                                      // The shares out of a state in a year add up to a million.
    size_t plan_years;
    struct fineochre_column benefits; // in state i at the start of year t, at t * 8 + i;
                                      // 8 * (plan_years + 1)
    struct fineochre_column marks;    // 1 where the premium is due, or else 0, at t * 8 + i;
                                      // 8 * (plan_years + 1)
    struct fineochre_column moves;    // paid for the move from i to j at the end of year t, at
                                      // (t * 8 + i) * 8 + j; 64 * plan_years
};

// Writes the reserve in a state and a year at each premium, at the place of that premium.
//
// Refused, with the reserves as they were: 253 where the counts differ, 254, 255, 9 to 12; the
// first of these.
uint8_t fineochre_reserves(
    const struct fineochre_columns *columns,
    size_t state,
    size_t year,
    const int64_t *premiums,
    size_t premium_count,
    int64_t *reserves,
    size_t reserve_count);

// Writes the least and the greatest that the contract can come to from a state and a year on, at
// the place of each premium.
//
// Refused, with both columns as they were: 253 where a count differs from that of the premiums,
// 254, 255, 9 to 12; the first of these.
uint8_t fineochre_spans(
    const struct fineochre_columns *columns,
    size_t state,
    size_t year,
    const int64_t *premiums,
    size_t premium_count,
    int64_t *least,
    size_t least_count,
    int64_t *greatest,
    size_t greatest_count);

// Writes the reserves of all states and years from a year on, at one premium: that of state i in
// year u at (u - year) * states + i, for u up to `years`. The column may be longer; what is past
// the course stays as it was. A course from a year past `years` is empty.
//
// Refused, with the column as it was: 254, 255, 9 to 12, 22; the first of these.
uint8_t fineochre_course(
    const struct fineochre_columns *columns,
    int64_t premium,
    size_t year,
    int64_t *column,
    size_t column_count);

// Writes for each bound, at its place, the least premium at which the reserve in a state and a
// year is not above it, or -1 where no premium from 0 to 10,000,000,000 ticks will do.
//
// Refused, with the premiums as they were: 253 where the counts differ, 255, 9 to 12; the first of
// these.
uint8_t fineochre_premiums(
    const struct fineochre_columns *columns,
    size_t state,
    size_t year,
    const int64_t *bounds,
    size_t bound_count,
    int64_t *premiums,
    size_t premium_count);

// What is told of a sheet. Lines are counted from 1, bytes from 0.
struct fineochre_sheet_report {
    size_t states;
    size_t years;
    size_t line;   // where the rest of the bytes begins, or the fault stands
    size_t offset;
};

// Reads the sheet at the head of the bytes: its factors and shares into the first entries of both
// columns, at the places that they have in `fineochre_columns`, and its states, its years and
// where the rest begins into the report. The columns may be longer; their other entries stay as
// they were. It wants no memory.
//
// Refused: 2 to 8, with the line and the offset of the fault in the report, and all else as it
// was.
uint8_t fineochre_read_sheet(
    const uint8_t *bytes,
    size_t byte_count,
    int64_t *factors,
    size_t factor_count,
    int64_t *shares,
    size_t share_count,
    struct fineochre_sheet_report *report);

#ifdef __cplusplus
}
#endif

#endif
