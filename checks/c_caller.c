// Calls every export of the static library as a program in C does, and compares the answers, what
// is written and what stays as it was. In the case of `c_case.h` all numbers that are handed in
// differ, so that two that change places show; another is worked by hand. It ends with 1 at the
// first difference.
#include "c_case.h"
#include "fineochre.h"

#define COUNT(column) (sizeof(column) / sizeof((column)[0]))

// Of the C library, said here, so that its own headers are not needed.
int printf(const char *format, ...);
_Noreturn void exit(int status);

// ---- memory: the linker sends the library's calls here, and those of `__real_` to the C library

void *__real_malloc(size_t size);
void __real_free(void *block);

// How many more blocks there are, and how many are held.
static size_t blocks_left;
static size_t blocks_held;

void *__wrap_malloc(size_t size)
{
    if (blocks_left == 0) {
        return 0;
    }
    blocks_left--;
    blocks_held++;
    return __real_malloc(size);
}

void *__wrap_realloc(void *block, size_t size)
{
    printf("c_caller: block %p is to grow to %zu bytes\n", block, size);
    exit(1);
}

void __wrap_free(void *block)
{
    blocks_held--;
    __real_free(block);
}

// ---- comparing

// The call that is tried, and on what.
static const char *call = "";
static const char *tried = "";

static void same(const char *what, size_t place, int64_t got, int64_t expected)
{
    if (got != expected) {
        printf("c_caller: %s: %s: %s %zu: expected %lld, got %lld\n", call, tried, what, place,
               (long long)expected, (long long)got);
        exit(1);
    }
}

// ---- where calls read and write

// The premiums and the bounds that calls read, where they could be written too.
static int64_t read_premiums[COUNT(premiums)];
static int64_t read_bounds[COUNT(bounds)];

// Two columns, with more places than any call is told of. No call answers what stands there first,
// and it is no premium.
static int64_t one[24];
static int64_t two[24];

static int64_t untouched(const int64_t *column, size_t place)
{
    return (column == one ? -7000000000001 : -8000000000001) - (int64_t)place;
}

static void copy(int64_t *to, const int64_t *from, size_t count)
{
    for (size_t k = 0; k < count; k++) {
        to[k] = from[k];
    }
}

// Before a call, on what it is tried, with memory enough.
static void begin(const char *on)
{
    tried = on;
    blocks_left = 1000;
    copy(read_premiums, premiums, COUNT(premiums));
    copy(read_bounds, bounds, COUNT(bounds));
    for (size_t k = 0; k < COUNT(one); k++) {
        one[k] = untouched(one, k);
        two[k] = untouched(two, k);
    }
}

static void all_same(const char *what, const int64_t *got, const int64_t *expected, size_t count)
{
    for (size_t k = 0; k < count; k++) {
        same(what, k, got[k], expected[k]);
    }
}

// After a call: what it answers, and that it keeps no memory and leaves what it read.
static void answered(uint8_t got, uint8_t expected)
{
    same("answer", 0, got, expected);
    same("blocks of memory held after it", 0, (int64_t)blocks_held, 0);
    all_same("premium that is read", read_premiums, premiums, COUNT(premiums));
    all_same("bound that is read", read_bounds, bounds, COUNT(bounds));
}

// Numbers stand in the first places of a column, and the other places are as they were.
static void written(const char *what, const int64_t *column, const int64_t *numbers, size_t count)
{
    for (size_t k = 0; k < COUNT(one); k++) {
        same(what, k, column[k], k < count ? numbers[k] : untouched(column, k));
    }
}

static void nothing_written(void)
{
    written("place of the first column", one, one, 0);
    written("place of the second column", two, two, 0);
}

static void refused(uint8_t got, uint8_t expected)
{
    answered(got, expected);
    nothing_written();
}

// ---- what is handed in

#define ALL(column) {column, COUNT(column)}

#define ON_PLAN(plan, plan_length)                                                              \
    {                                                                                           \
        .states = STATES, .years = YEARS, .factors = ALL(factors), .shares = ALL(shares),       \
        .plan_years = plan_length, .benefits = ALL(plan##_benefits), .marks = ALL(plan##_marks), \
        .moves = ALL(plan##_moves),                                                             \
    }

static const struct fineochre_columns on_long = ON_PLAN(long, LONG_YEARS);
static const struct fineochre_columns on_short = ON_PLAN(short, SHORT_YEARS);

// ---- what is written: on the long plan in state 2 and year 1, on the short in state 1 and year 0

static void try_reserves(void)
{
    call = "fineochre_reserves";
    begin("the long plan");
    answered(fineochre_reserves(&on_long, 2, 1, read_premiums, 3, one, 3), FINEOCHRE_DONE);
    written("reserve", one, long_reserves, 3);
    begin("the short plan, two premiums");
    answered(fineochre_reserves(&on_short, 1, 0, read_premiums, 2, one, 2), FINEOCHRE_DONE);
    written("reserve", one, short_reserves, 2);
}

static void try_spans(void)
{
    call = "fineochre_spans";
    begin("the long plan");
    answered(fineochre_spans(&on_long, 2, 1, read_premiums, 3, one, 3, two, 3), FINEOCHRE_DONE);
    written("least", one, long_least, 3);
    written("greatest", two, long_greatest, 3);
    begin("the short plan, two premiums");
    answered(fineochre_spans(&on_short, 1, 0, read_premiums, 2, one, 2, two, 2), FINEOCHRE_DONE);
    written("least", one, short_least, 2);
    written("greatest", two, short_greatest, 2);
}

static void try_course(void)
{
    call = "fineochre_course";
    begin("the long plan, from year 1, with places to spare");
    answered(fineochre_course(&on_long, premiums[2], 1, one, 8), FINEOCHRE_DONE);
    written("entry", one, long_course, COUNT(long_course));
    begin("the short plan, from year 0, with just the places");
    answered(fineochre_course(&on_short, premiums[1], 0, one, 9), FINEOCHRE_DONE);
    written("entry", one, short_course, COUNT(short_course));
    begin("a year past the last");
    answered(fineochre_course(&on_long, premiums[2], 3, one, 0), FINEOCHRE_DONE);
    nothing_written();
}

static void try_premiums(void)
{
    call = "fineochre_premiums";
    begin("the long plan");
    answered(fineochre_premiums(&on_long, 2, 1, read_bounds, 4, one, 4), FINEOCHRE_DONE);
    written("premium", one, long_premiums, 4);
    begin("the short plan, three bounds");
    answered(fineochre_premiums(&on_short, 1, 0, read_bounds, 3, one, 3), FINEOCHRE_DONE);
    written("premium", one, short_premiums, 3);
}

// ---- a case worked by hand: two years, a tenth and a fifth die, a factor of nine tenths, an
// endowment of 1,000,000 ticks over both years with the premium due in both

static int64_t worked_factors[2] = {900000, 0};
static const int64_t worked_shares[8] = {900000, 100000, 0, 1000000, 800000, 200000, 0, 1000000};
static const int64_t worked_benefits[24] = {[16] = 1000000};
static int64_t worked_marks[24];
static const int64_t worked_moves[128] = {[1] = 1000000, [65] = 1000000};

// With this mark where the premium is due, and this factor in the last year.
static struct fineochre_columns worked(int64_t mark, int64_t last_factor)
{
    worked_factors[1] = last_factor;
    worked_marks[0] = worked_marks[8] = mark;
    return (struct fineochre_columns){
        .states = 2,
        .years = 2,
        .factors = ALL(worked_factors),
        .shares = ALL(worked_shares),
        .plan_years = 2,
        .benefits = ALL(worked_benefits),
        .marks = ALL(worked_marks),
        .moves = ALL(worked_moves),
    };
}

static const int64_t worked_premiums[2] = {452486, 452487};
static const int64_t worked_reserves[2] = {1, -1};
static const int64_t worked_least[1] = {-49725};
static const int64_t worked_greatest[1] = {447513};
static const int64_t worked_course[6] = {-1, 0, 447513, 0, 1000000, 0};
static const int64_t worked_bounds[3] = {0, 819000, -9223372036854775807 - 1};
static const int64_t worked_least_premiums[3] = {452487, 0, FINEOCHRE_NO_PREMIUM};

static void try_worked_case(void)
{
    const struct fineochre_columns columns = worked(1, 900000);
    call = "fineochre_reserves";
    begin("the worked case");
    answered(fineochre_reserves(&columns, 0, 0, worked_premiums, 2, one, 2), FINEOCHRE_DONE);
    written("reserve", one, worked_reserves, 2);
    call = "fineochre_spans";
    begin("the worked case");
    answered(fineochre_spans(&columns, 0, 0, worked_premiums + 1, 1, one, 1, two, 1),
             FINEOCHRE_DONE);
    written("least", one, worked_least, 1);
    written("greatest", two, worked_greatest, 1);
    call = "fineochre_course";
    begin("the worked case, with a place to spare");
    answered(fineochre_course(&columns, worked_premiums[1], 0, one, 7), FINEOCHRE_DONE);
    written("entry", one, worked_course, 6);
    begin("the worked case, a place too few");
    refused(fineochre_course(&columns, 0, 0, one, 5), FINEOCHRE_COURSE);
    call = "fineochre_premiums";
    begin("the worked case");
    answered(fineochre_premiums(&columns, 0, 0, worked_bounds, 3, one, 3), FINEOCHRE_DONE);
    written("premium", one, worked_least_premiums, 3);
}

// Of what is broken at once, the first is told.
static const struct {
    const char *on;
    int64_t mark, last_factor, premium;
    size_t places;
    uint8_t answer;
} unfit_worked[] = {
    {"nothing", 1, 900000, 0, 1, FINEOCHRE_DONE},
    {"the places", 1, 900000, 0, 2, FINEOCHRE_UNFIT_PLACES},
    {"the places and a premium", 1, 900000, -1, 2, FINEOCHRE_UNFIT_PLACES},
    {"a premium below nought", 1, 900000, -1, 1, FINEOCHRE_UNFIT_PREMIUM},
    {"a premium past the limit", 1, 900000, 10000000001, 1, FINEOCHRE_UNFIT_PREMIUM},
    {"a factor", 1, 0, 0, 1, FINEOCHRE_FACTOR},
    {"a factor and a mark", 2, 0, 0, 1, FINEOCHRE_FACTOR},
    {"a mark", 2, 900000, 0, 1, FINEOCHRE_PAYMENT},
};

static void refuse_worked_case(void)
{
    call = "fineochre_reserves, of the worked case,";
    for (size_t k = 0; k < COUNT(unfit_worked); k++) {
        const int64_t premium = unfit_worked[k].premium;
        const size_t places = unfit_worked[k].places;
        const struct fineochre_columns columns =
            worked(unfit_worked[k].mark, unfit_worked[k].last_factor);
        begin(unfit_worked[k].on);
        const uint8_t answer = fineochre_reserves(&columns, 0, 0, &premium, 1, one, places);
        answered(answer, unfit_worked[k].answer);
        if (answer != FINEOCHRE_DONE) {
            nothing_written();
        }
    }
}

// ---- what every call refuses that values columns

static uint8_t ask_reserves(const struct fineochre_columns *columns)
{
    return fineochre_reserves(columns, 2, 1, read_premiums, 3, one, 3);
}

static uint8_t ask_spans(const struct fineochre_columns *columns)
{
    return fineochre_spans(columns, 2, 1, read_premiums, 3, one, 3, two, 3);
}

static uint8_t ask_course(const struct fineochre_columns *columns)
{
    return fineochre_course(columns, premiums[2], 1, one, 8);
}

static uint8_t ask_premiums(const struct fineochre_columns *columns)
{
    return fineochre_premiums(columns, 2, 1, read_bounds, 4, one, 4);
}

static const struct {
    const char *name;
    uint8_t (*ask)(const struct fineochre_columns *columns);
} valuing[] = {
    {"fineochre_reserves", ask_reserves},
    {"fineochre_spans", ask_spans},
    {"fineochre_course", ask_course},
    {"fineochre_premiums", ask_premiums},
};

static const int64_t unfit_factors[YEARS] = {970000, 0};
static const int64_t unfit_marks[8 * (LONG_YEARS + 1)] = {0, 0, 2};

// Columns that are unfit in one field, or in two of which the first is told.
static const struct {
    const char *on;
    uint8_t answer;
    size_t states, years, factors, plan_years;
    const int64_t *factor_entries, *share_entries, *mark_entries;
} unfit[] = {
    {"a state too few", FINEOCHRE_SIZE, 2, YEARS, YEARS, LONG_YEARS,
     factors, shares, long_marks},
    {"a year too many", FINEOCHRE_SIZE, STATES, 3, YEARS, LONG_YEARS,
     factors, shares, long_marks},
    {"a factor too few", FINEOCHRE_SIZE, STATES, YEARS, 1, LONG_YEARS,
     factors, shares, long_marks},
    {"a factor of nought", FINEOCHRE_FACTOR, STATES, YEARS, YEARS, LONG_YEARS,
     unfit_factors, shares, long_marks},
    {"shares one on", FINEOCHRE_SHARE, STATES, YEARS, YEARS, LONG_YEARS,
     factors, long_moves, long_marks},
    {"a year of the plan too few", FINEOCHRE_PAYMENT, STATES, YEARS, YEARS, 2,
     factors, shares, long_marks},
    {"a mark of two", FINEOCHRE_PAYMENT, STATES, YEARS, YEARS, LONG_YEARS,
     factors, shares, unfit_marks},
    {"a factor and a mark", FINEOCHRE_FACTOR, STATES, YEARS, YEARS, LONG_YEARS,
     unfit_factors, shares, unfit_marks},
};

static struct fineochre_columns unfit_columns(size_t k)
{
    struct fineochre_columns columns = on_long;
    columns.states = unfit[k].states;
    columns.years = unfit[k].years;
    columns.factors.entries = unfit[k].factor_entries;
    columns.factors.count = unfit[k].factors;
    columns.shares.entries = unfit[k].share_entries;
    columns.plan_years = unfit[k].plan_years;
    columns.marks.entries = unfit[k].mark_entries;
    return columns;
}

// The blocks that tables want, for factors, shares, benefits, marks and moves.
enum { BLOCKS = 5 };

// Where there is a block too few, memory is wanting whatever the columns are.
static void try_unfit_columns(size_t v)
{
    call = valuing[v].name;
    for (size_t k = 0; k < COUNT(unfit); k++) {
        const struct fineochre_columns columns = unfit_columns(k);
        begin(unfit[k].on);
        refused(valuing[v].ask(&columns), unfit[k].answer);
        blocks_left = BLOCKS - 1;
        refused(valuing[v].ask(&columns), FINEOCHRE_NO_MEMORY);
    }
}

// A call stops wherever the blocks give out.
static void try_want_of_memory(size_t v)
{
    call = valuing[v].name;
    for (size_t blocks = 0; blocks < BLOCKS; blocks++) {
        begin("want of memory");
        blocks_left = blocks;
        refused(valuing[v].ask(&on_long), FINEOCHRE_NO_MEMORY);
    }
    begin("memory that just suffices");
    blocks_left = BLOCKS;
    answered(valuing[v].ask(&on_long), FINEOCHRE_DONE);
}

static void try_all_valuing(void)
{
    for (size_t v = 0; v < COUNT(valuing); v++) {
        try_unfit_columns(v);
        try_want_of_memory(v);
    }
}

// ---- tables of every size: memory is not wanting where there is enough

enum { MOST_YEARS = 120, MOST_STATES = 8 };
static int64_t whole_factors[MOST_YEARS];
static int64_t staying[MOST_YEARS * MOST_STATES * MOST_STATES];
static const int64_t noughts[MOST_STATES * MOST_STATES * MOST_YEARS];

// Everybody stays: of the m x m shares of a year, each that is m + 1 after another is whole.
static void fill_staying(size_t states)
{
    for (size_t k = 0; k < COUNT(staying); k++) {
        whole_factors[k % MOST_YEARS] = 1000000;
        staying[k] = k % (states * states) % (states + 1) == 0 ? 1000000 : 0;
    }
}

static struct fineochre_columns of_size(size_t states, size_t years, size_t plan_years)
{
    const size_t places = MOST_STATES * (plan_years + 1);
    return (struct fineochre_columns){
        .states = states,
        .years = years,
        .factors = {whole_factors, years},
        .shares = {staying, years * states * states},
        .plan_years = plan_years,
        .benefits = {noughts, places},
        .marks = {noughts, places},
        .moves = {noughts, MOST_STATES * MOST_STATES * plan_years},
    };
}

// One of the calls, with nothing to write.
static uint8_t ask_nothing(size_t which, const struct fineochre_columns *columns)
{
    switch (which % 4) {
    case 0:
        return fineochre_reserves(columns, 2, 1, read_premiums, 0, one, 0);
    case 1:
        return fineochre_spans(columns, 2, 1, read_premiums, 0, one, 0, two, 0);
    case 2:
        return fineochre_course(columns, premiums[2], MOST_YEARS + 1, one, 0);
    default:
        return fineochre_premiums(columns, 2, 1, read_bounds, 0, one, 0);
    }
}

static void try_lengths(size_t states)
{
    fill_staying(states);
    for (size_t k = 0; k < MOST_YEARS * (MOST_YEARS + 1); k++) {
        const size_t years = 1 + k % MOST_YEARS, plan_years = k / MOST_YEARS;
        const struct fineochre_columns columns = of_size(states, years, plan_years);
        begin("tables of every size");
        const uint8_t answer = ask_nothing(years + plan_years, &columns);
        same("answer on a plan with so many years:", plan_years, answer, FINEOCHRE_DONE);
        refused(answer, FINEOCHRE_DONE);
    }
}

static void try_every_size(void)
{
    call = "a call that values columns";
    for (size_t states = 2; states <= MOST_STATES; states++) {
        try_lengths(states);
    }
}

// ---- what is refused before there are tables, so without memory too

// Before a call that wants no memory.
static void begin_without_memory(const char *on)
{
    begin(on);
    blocks_left = 0;
}

static const int64_t low_premiums[3] = {1009, -1, 271828};
static const int64_t high_premiums[3] = {1009, 31415, 10000000001};

static void refuse_reserves(void)
{
    call = "fineochre_reserves";
    begin_without_memory("a place too few");
    refused(fineochre_reserves(&on_long, 2, 1, low_premiums, 3, one, 2), FINEOCHRE_UNFIT_PLACES);
    begin_without_memory("a place too many");
    refused(fineochre_reserves(&on_long, 2, 1, read_premiums, 3, one, 4), FINEOCHRE_UNFIT_PLACES);
    begin_without_memory("a premium below nought");
    refused(fineochre_reserves(&on_long, 2, 1, low_premiums, 3, one, 3), FINEOCHRE_UNFIT_PREMIUM);
    begin_without_memory("a premium past the limit");
    refused(fineochre_reserves(&on_long, 2, 1, high_premiums, 3, one, 3), FINEOCHRE_UNFIT_PREMIUM);
}

static void refuse_spans(void)
{
    call = "fineochre_spans";
    begin_without_memory("a place too few for the least");
    refused(fineochre_spans(&on_long, 2, 1, low_premiums, 3, one, 2, two, 3),
            FINEOCHRE_UNFIT_PLACES);
    begin_without_memory("a place too many for the greatest");
    refused(fineochre_spans(&on_long, 2, 1, read_premiums, 3, one, 3, two, 4),
            FINEOCHRE_UNFIT_PLACES);
    begin_without_memory("a premium below nought");
    refused(fineochre_spans(&on_long, 2, 1, low_premiums, 3, one, 3, two, 3),
            FINEOCHRE_UNFIT_PREMIUM);
    begin_without_memory("a premium past the limit");
    refused(fineochre_spans(&on_long, 2, 1, high_premiums, 3, one, 3, two, 3),
            FINEOCHRE_UNFIT_PREMIUM);
}

static void refuse_course_and_premiums(void)
{
    call = "fineochre_course";
    begin_without_memory("a premium below nought");
    refused(fineochre_course(&on_long, -1, 1, one, 5), FINEOCHRE_UNFIT_PREMIUM);
    begin_without_memory("a premium past the limit");
    refused(fineochre_course(&on_long, 10000000001, 1, one, 8), FINEOCHRE_UNFIT_PREMIUM);
    begin("a place too few");
    refused(fineochre_course(&on_long, premiums[2], 1, one, 5), FINEOCHRE_COURSE);
    call = "fineochre_premiums";
    begin_without_memory("a place too few");
    refused(fineochre_premiums(&on_long, 2, 1, read_bounds, 4, one, 3), FINEOCHRE_UNFIT_PLACES);
    begin_without_memory("a place too many");
    refused(fineochre_premiums(&on_long, 2, 1, read_bounds, 4, one, 5), FINEOCHRE_UNFIT_PLACES);
}

// ---- sheets, without memory

static const struct fineochre_sheet_report untold = {11, 12, 13, 14};

static uint8_t read_sheet(const char *text, size_t length, struct fineochre_sheet_report *report)
{
    call = "fineochre_read_sheet";
    *report = untold;
    return fineochre_read_sheet((const uint8_t *)text, length, one, 4, two, 20, report);
}

static void told(const struct fineochre_sheet_report *report, size_t line, size_t offset)
{
    same("line", 0, (int64_t)report->line, (int64_t)line);
    same("offset", 0, (int64_t)report->offset, (int64_t)offset);
}

static void try_sheet(void)
{
    struct fineochre_sheet_report report;
    begin_without_memory("a sheet and a rest");
    answered(read_sheet(sheet, sizeof(sheet) - 1, &report), FINEOCHRE_DONE);
    same("states", 0, (int64_t)report.states, SHEET_STATES);
    same("years", 0, (int64_t)report.years, SHEET_YEARS);
    told(&report, SHEET_LINES + 1, SHEET_BYTES);
    written("factor", one, sheet_factors, COUNT(sheet_factors));
    written("share", two, sheet_shares, COUNT(sheet_shares));
}

#define TEXT(text) text, sizeof(text) - 1

// A sheet for each rule, with the line and the offset of what breaks it, counted by hand. There are
// four places for factors and twenty for shares.
static const struct {
    const char *on;
    const char *text;
    size_t length;
    uint8_t answer;
    size_t line, offset;
} unread[] = {
    {"a line that does not end", TEXT("B;2;1\nD;0;5"), FINEOCHRE_LINE_FEED, 2, 6},
    {"another letter", TEXT("B;2;1\nX\n"), FINEOCHRE_FORM, 2, 6},
    {"a sign", TEXT("B;2;1\nD;0;+1\n"), FINEOCHRE_NUMBER, 2, 10},
    {"a state too many", TEXT("B;9;1\n"), FINEOCHRE_RANGE, 1, 2},
    {"a factor too many", TEXT("B;2;5\n"), FINEOCHRE_ROOM, 1, 0},
    {"shares too many", TEXT("B;3;3\n"), FINEOCHRE_ROOM, 1, 0},
    {"another year", TEXT("B;2;2\nD;1;5\n"), FINEOCHRE_ORDER, 2, 6},
    {"a row that is not whole", TEXT("B;2;1\nD;0;5\nT;0;0;0;6\nE\n"), FINEOCHRE_ROW, 4, 22},
};

static void refuse_sheets(void)
{
    for (size_t k = 0; k < COUNT(unread); k++) {
        struct fineochre_sheet_report report;
        begin_without_memory(unread[k].on);
        refused(read_sheet(unread[k].text, unread[k].length, &report), unread[k].answer);
        same("states", 0, (int64_t)report.states, 11);
        same("years", 0, (int64_t)report.years, 12);
        told(&report, unread[k].line, unread[k].offset);
    }
}

// A sheet of the first year of the worked case, with a byte after its 65.
static const char worked_sheet[] =
    "B;2;1\n"
    "D;0;900000\n"
    "T;0;0;0;900000\n"
    "T;0;0;1;100000\n"
    "T;0;1;1;1000000\n"
    "E\n"
    "Q";
enum { WORKED_BYTES = 65 };

// How many bytes there are, and places for factors and for shares; what is answered, and where.
static const struct {
    const char *on;
    size_t length, factors, shares;
    uint8_t answer;
    size_t line, offset;
} worked_reads[] = {
    {"all bytes, with places to spare", WORKED_BYTES + 1, 2, 5, FINEOCHRE_DONE, 7, 65},
    {"no rest", WORKED_BYTES, 1, 4, FINEOCHRE_DONE, 7, 65},
    {"a place for shares too few", WORKED_BYTES, 1, 3, FINEOCHRE_ROOM, 1, 0},
    {"no last line feed", WORKED_BYTES - 1, 1, 4, FINEOCHRE_LINE_FEED, 6, 63},
    {"a line cut off", 46, 1, 4, FINEOCHRE_LINE_FEED, 4, 32},
};

static void try_worked_sheet(void)
{
    call = "fineochre_read_sheet, of the worked sheet,";
    for (size_t k = 0; k < COUNT(worked_reads); k++) {
        struct fineochre_sheet_report report = untold;
        begin_without_memory(worked_reads[k].on);
        const uint8_t answer =
            fineochre_read_sheet((const uint8_t *)worked_sheet, worked_reads[k].length, one,
                                 worked_reads[k].factors, two, worked_reads[k].shares, &report);
        const int is_read = answer == FINEOCHRE_DONE;
        answered(answer, worked_reads[k].answer);
        same("states", 0, (int64_t)report.states, is_read ? 2 : 11);
        same("years", 0, (int64_t)report.years, is_read ? 1 : 12);
        written("factor", one, worked_factors, is_read ? 1 : 0);
        written("share", two, worked_shares, is_read ? 4 : 0);
        told(&report, worked_reads[k].line, worked_reads[k].offset);
    }
}

int main(void)
{
    try_reserves();
    try_spans();
    try_course();
    try_premiums();
    try_worked_case();
    refuse_worked_case();
    try_all_valuing();
    try_every_size();
    refuse_reserves();
    refuse_spans();
    refuse_course_and_premiums();
    try_sheet();
    refuse_sheets();
    try_worked_sheet();
    return 0;
}
