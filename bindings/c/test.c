/*
 * Calls every function of the header from C: as it is meant to be called, with damaged input, and at
 * its edges. What is to come of it was worked out by hand. Lent memory ends where a page begins that
 * nobody may touch, memory that is only read cannot be written, and every other byte is compared.
 */
#define _DEFAULT_SOURCE
#include <chordvenus.h>

#include <inttypes.h>
#include <stdio.h>
#include <stdlib.h>
#include <string.h>
#include <sys/mman.h>

/* ---- what was expected ---- */

static int passed, failed;

static void told(int right, const char *what, int line)
{
    passed += right;
    failed += !right;
    if (!right)
        printf("line %d: %s\n", line, what);
}

static void print_answer(const char *word, cv_answer a)
{
    printf("    %s code %" PRIu64 " place %" PRIu64 " side %" PRIu64 " records %" PRIu64 " longest %" PRIu64
           " total %" PRIu64 " length %" PRIu64 " empty %" PRIu64 " added %" PRIu64 " dropped %" PRIu64
           " about %" PRIu64 "\n", word, a.code, a.place, a.side, a.records, a.longest, a.total, a.length,
           a.empty, a.added, a.dropped, a.about);
}

static void answered(cv_answer got, cv_answer wanted, const char *what, int line)
{
    int same = memcmp(&got, &wanted, sizeof got) == 0;
    told(same, what, line);
    if (!same) {
        print_answer("got   ", got);
        print_answer("wanted", wanted);
    }
}

#define CHECK(right) told((right) != 0, #right, __LINE__)
#define ANSWERS(call, ...) answered(call, (cv_answer){__VA_ARGS__}, #call, __LINE__)
#define REFUSES(call, why, where) ANSWERS(call, .code = why, .place = where)

/* ---- memory to lend ---- */

enum { CELLS, PLAN, LIST, RESULT, PLACES };
enum { FILL = 0xa5, LARGEST = 160 * 4096, FENCE = 64 * 1024 };

static uint8_t *memory[PLACES];
static size_t lent[PLACES];

static void lay_out(void)
{
    for (int place = 0; place < PLACES; place++) {
        void *got = mmap(NULL, LARGEST + FENCE, PROT_READ | PROT_WRITE, MAP_PRIVATE | MAP_ANONYMOUS, -1, 0);
        if (got == MAP_FAILED || mprotect((uint8_t *)got + LARGEST, FENCE, PROT_NONE) != 0) {
            perror("memory to lend");
            exit(2);
        }
        memory[place] = got;
    }
}

/* So many bytes with a fence behind them, all filled; NULL for none. */
static uint8_t *lend(int place, size_t len)
{
    if (mprotect(memory[place], LARGEST, PROT_READ | PROT_WRITE) != 0)
        exit(2);
    memset(memory[place], FILL, LARGEST);
    lent[place] = len;
    return len == 0 ? NULL : memory[place] + LARGEST - len;
}

/* A copy of these bytes with a fence behind them, which cannot be written. */
static const uint8_t *lend_bytes(int place, const uint8_t *bytes, size_t len)
{
    uint8_t *copy = lend(place, len);
    if (len != 0)
        memcpy(copy, bytes, len);
    if (mprotect(memory[place], LARGEST, PROT_READ) != 0)
        exit(2);
    return copy;
}

static const uint32_t *lend_cells(const uint32_t *cells, size_t count)
{
    return (const uint32_t *)(const void *)lend_bytes(CELLS, (const uint8_t *)cells, count * sizeof *cells);
}

/* The memory that was lent last. */
static const uint8_t *lent_at(int place)
{
    return memory[place] + LARGEST - lent[place];
}

/* Did everything stay as it was filled, but the first `but` bytes that were lent? */
static int untouched(int place, size_t but)
{
    size_t start = LARGEST - lent[place];
    for (size_t k = 0; k < LARGEST; k++)
        if ((k < start || k >= start + but) && memory[place][k] != FILL)
            return 0;
    return 1;
}

/* ---- demands, plans and wish lists in words ---- */

static uint32_t cells[CV_MOST_PORTS * CV_MOST_PORTS + 1];
static uint8_t plan[(CV_MOST_RECORDS + 2) * CV_RECORD_SIZE];
static uint8_t list[(CV_MOST_PORTS * CV_MOST_PORTS + 1) * CV_WISH_SIZE];

/* A demand such as "2 1 / 1 2" into cells; answers how many. */
static size_t read_cells(const char *text)
{
    size_t count = 0;
    while (*text != '\0') {
        char *end;
        unsigned long cell = strtoul(text, &end, 10);
        if (end != text)
            cells[count++] = (uint32_t)cell;
        text = end + (*end != '\0');
    }
    return count;
}

static void put_record(size_t at, unsigned hold, unsigned n)
{
    uint8_t *record = plan + at * CV_RECORD_SIZE;
    memset(record, CV_IDLE, CV_RECORD_SIZE);
    record[0] = (uint8_t)hold;
    record[1] = (uint8_t)(hold >> 8);
    record[2] = (uint8_t)n;
    record[3] = 0;
}

/* A plan such as "2:0 1; 1:- 0" for n ports into plan; answers how many records. */
static size_t read_plan(unsigned n, const char *text)
{
    size_t records = 0;
    while (*text != '\0') {
        char *end;
        put_record(records, (unsigned)strtoul(text, &end, 10), n);
        uint8_t *output = plan + records * CV_RECORD_SIZE + 4;
        for (text = end; *text != '\0' && *text != ';'; output++, text = end) {
            text++; /* the colon or the space before it */
            if (*text == '-')
                end = (char *)text + 1;
            else
                *output = (uint8_t)strtoul(text, &end, 10);
        }
        text += *text == ';';
        records++;
    }
    return records;
}

static void put_wish(size_t at, unsigned input, unsigned output, uint32_t bits)
{
    uint8_t *record = list + at * CV_WISH_SIZE;
    const uint8_t bytes[CV_WISH_SIZE] = {(uint8_t)input,        (uint8_t)output,      0, 0, (uint8_t)bits,
                                         (uint8_t)(bits >> 8), (uint8_t)(bits >> 16), (uint8_t)(bits >> 24)};
    memcpy(record, bytes, sizeof bytes);
}

/* Numbers of ports that no switch has; one of them has the square 0 in 64 bits. */
static const uint64_t no_ports[] = {0, 65, 128, 256, 1 << 16, UINT64_C(1) << 32, UINT64_C(1) << 63, UINT64_MAX};
enum { NO_PORTS = sizeof no_ports / sizeof *no_ports };

/* ---- wishes ---- */

static void one_wish(void)
{
    const struct { uint32_t bits; uint64_t code, slots; } rows[] = {
        {0x00000000, 0, 0},     /* 0 */
        {0x80000000, 0, 0},     /* minus 0 */
        {0x00000001, 0, 2},     /* the least above 0 */
        {0x007fffff, 0, 2},     /* the largest below the normal ones */
        {0x00800000, 0, 2},     /* the least normal one */
        {0x3f7fffff, 0, 2},     /* just below 1 */
        {0x3f800000, 0, 2},     /* 1 */
        {0x3fc00000, 0, 2},     /* 1.5 */
        {0x40000000, 0, 2},     /* 2 */
        {0x40000001, 0, 3},     /* just above 2 */
        {0x40400000, 0, 3},     /* 3 */
        {0x477ffe00, 0, 65534}, /* 65,534 */
        {0x477ffe01, 0, 65535}, /* just above that */
        {0x477fff00, 0, 65535}, /* 65,535 */
        {0x477fff01, 8, 0},     /* just above that */
        {0x7f7fffff, 8, 0},     /* the largest there is */
        {0x80000001, 7, 0},     /* just below 0 */
        {0xbf800000, 7, 0},     /* -1 */
        {0xff7fffff, 7, 0},     /* the least there is */
        {0x7f800000, 6, 0},     /* infinity */
        {0xff800000, 6, 0},     /* minus infinity */
        {0x7f800001, 6, 0},     /* NaNs */
        {0x7fc00000, 6, 0},
        {0xffc00000, 6, 0},
        {0xffffffff, 6, 0},
    };
    for (size_t k = 0; k < sizeof rows / sizeof *rows; k++)
        ANSWERS(cv_wish(rows[k].bits), .code = rows[k].code, .total = rows[k].slots);
}

/* The list's first so many bytes, into so many cells. */
static cv_answer wishes(uint64_t n, size_t bytes, size_t count)
{
    const uint8_t *from = lend_bytes(LIST, list, bytes);
    uint32_t *to = (uint32_t *)(void *)lend(RESULT, count * sizeof *to);
    return cv_wishes(n, from, bytes, to, count);
}

static void wishes_refused(int line, uint64_t n, size_t bytes, size_t count, uint64_t code, uint64_t place)
{
    answered(wishes(n, bytes, count), (cv_answer){.code = code, .place = place}, "wishes", line);
    told(untouched(RESULT, 0), "a refused wish list writes nothing", line);
}
#define WISHES_REFUSED(...) wishes_refused(__LINE__, __VA_ARGS__)

static void wishes_done(int line, unsigned n, size_t records, const uint32_t *wanted)
{
    answered(wishes(n, records * CV_WISH_SIZE, n * n), (cv_answer){.records = records}, "wishes", line);
    size_t bytes = n * n * sizeof *wanted;
    told(memcmp(lent_at(RESULT), wanted, bytes) == 0, "the cells", line);
    told(untouched(RESULT, bytes), "a wish list writes its cells alone", line);
}
#define WISHES_DONE(...) wishes_done(__LINE__, __VA_ARGS__)

static void wish_lists(void)
{
    put_wish(0, 0, 0, 0x40000000); /* 2 */
    put_wish(1, 0, 1, 0x3f800000); /* 1 */
    put_wish(2, 1, 0, 0x3f000000); /* 0.5 */
    put_wish(3, 1, 1, 0x3fc00000); /* 1.5 */
    WISHES_DONE(2, 4, (uint32_t[]){2, 2, 2, 2});
    WISHES_DONE(2, 3, (uint32_t[]){2, 2, 2, 0});
    WISHES_DONE(3, 4, (uint32_t[]){2, 2, 0, 2, 2, 0, 0, 0, 0});
    WISHES_DONE(2, 0, (uint32_t[]){0, 0, 0, 0});
    WISHES_DONE(1, 1, (uint32_t[]){2});
    put_wish(0, 1, 0, 0x80000000); /* minus 0 */
    put_wish(1, 0, 1, 0x477fff00); /* 65,535, twice on input 0: lines are not checked */
    put_wish(2, 0, 0, 0x477fff00);
    WISHES_DONE(2, 3, (uint32_t[]){65535, 65535, 0, 0});

    static uint32_t all[CV_MOST_PORTS * CV_MOST_PORTS];
    for (unsigned k = 0; k < CV_MOST_PORTS * CV_MOST_PORTS; k++) {
        put_wish(k, k / 64, k % 64, k % 2 ? 0x41200000 : 0); /* 10 and 0 by turns */
        all[k] = k % 2 ? 10 : 0;
    }
    WISHES_DONE(64, CV_MOST_PORTS * CV_MOST_PORTS, all);
    memcpy(list + sizeof list - CV_WISH_SIZE, list, CV_WISH_SIZE);
    WISHES_REFUSED(64, sizeof list, 4096, CV_NAMED, 4096);
}

static void wish_list_refusals(void)
{
    put_wish(0, 0, 0, 0x40000000);
    put_wish(1, 1, 1, 0x40000000);
    for (int k = 0; k < NO_PORTS; k++) {
        WISHES_REFUSED(no_ports[k], 16, 4, CV_PORTS, 0);
        WISHES_REFUSED(no_ports[k], 15, 0, CV_PORTS, 0); /* before 2 and 9 */
    }
    WISHES_REFUSED(2, 16, 3, CV_CELLS, 4);
    WISHES_REFUSED(2, 16, 5, CV_CELLS, 4);
    WISHES_REFUSED(1, 0, 0, CV_CELLS, 1);
    WISHES_REFUSED(64, 16, 4095, CV_CELLS, 4096);
    WISHES_REFUSED(2, 15, 3, CV_CELLS, 4); /* before 9 */
    WISHES_REFUSED(2, 15, 4, CV_TORN, 1);
    WISHES_REFUSED(2, 17, 4, CV_TORN, 2);
    WISHES_REFUSED(2, 1, 4, CV_TORN, 0);
    WISHES_REFUSED(2, 9, 4, CV_TORN, 1);
    list[2] = 1;
    WISHES_REFUSED(2, 15, 4, CV_TORN, 1); /* before 11 */
}

/* Record 1 of three spoiled, with the faults that come after it in the order on it too. */
static void faulty_wishes(void)
{
    const struct { uint64_t code; unsigned input, output, spare; uint32_t bits; } rows[] = {
        {CV_MALFORMED, 2, 0, 0, 0x40000000},  {CV_MALFORMED, 0, 2, 0, 0x40000000}, {CV_MALFORMED, 255, 255, 0, 0},
        {CV_MALFORMED, 1, 0, 1, 0x40000000},  {CV_MALFORMED, 1, 0, 256, 0},        {CV_MALFORMED, 0, 0, 255, 0x7fc00000},
        {CV_NAMED, 0, 0, 0, 0x40000000},      {CV_NAMED, 0, 0, 0, 0},              {CV_NAMED, 0, 0, 0, 0x7fc00000},
        {CV_NAMED, 0, 0, 0, 0x80000001},      {CV_NAMED, 0, 0, 0, 0x477fff01},     {CV_NOT_FINITE, 1, 0, 0, 0x7fc00000},
        {CV_NOT_FINITE, 1, 0, 0, 0xff800000}, {CV_BELOW_ZERO, 1, 0, 0, 0x80000001}, {CV_ABOVE_MOST, 1, 0, 0, 0x477fff01},
    };
    for (size_t k = 0; k < sizeof rows / sizeof *rows; k++) {
        put_wish(0, 0, 0, 0x40000000);
        put_wish(1, rows[k].input, rows[k].output, rows[k].bits);
        list[CV_WISH_SIZE + 2] = (uint8_t)rows[k].spare;
        list[CV_WISH_SIZE + 3] = (uint8_t)(rows[k].spare >> 8);
        put_wish(2, 9, 9, 0x7fc00000); /* faulty as well, but later */
        WISHES_REFUSED(2, 3 * CV_WISH_SIZE, 4, rows[k].code, 1);
    }
    put_wish(0, 0, 0, 0); /* a wish of zero names its pair */
    put_wish(1, 0, 0, 0x40000000);
    WISHES_REFUSED(2, 2 * CV_WISH_SIZE, 4, CV_NAMED, 1);
    put_wish(1, 64, 0, 0x40000000);
    WISHES_REFUSED(64, 2 * CV_WISH_SIZE, 4096, CV_MALFORMED, 1);
    put_wish(1, 63, 63, 0x7f800000);
    WISHES_REFUSED(64, 2 * CV_WISH_SIZE, 4096, CV_NOT_FINITE, 1);
}

/* ---- planners ---- */

typedef cv_answer planner(uint64_t, const uint32_t *, size_t, uint8_t *, size_t);

static cv_answer planned(planner *call, uint64_t n, size_t count, size_t room)
{
    const uint32_t *from = lend_cells(cells, count);
    return call(n, from, count, lend(RESULT, room), room);
}

static void plan_refused(int line, planner *call, uint64_t n, size_t count, size_t room, cv_answer wanted)
{
    answered(planned(call, n, count, room), wanted, "a refused plan", line);
    told(untouched(RESULT, 0), "a refused plan writes nothing", line);
}
#define PLAN_REFUSED(call, n, count, room, ...) plan_refused(__LINE__, call, n, count, room, (cv_answer){__VA_ARGS__})

/* This plan of this demand: in a buffer that just holds it, in a larger one, and refused in smaller ones. */
static void plans(int line, planner *call, unsigned n, const char *demand, const char *text, cv_answer wanted)
{
    size_t count = read_cells(demand), records = read_plan(n, text), bytes = records * CV_RECORD_SIZE;
    const size_t rooms[] = {bytes, bytes + 1, bytes + CV_RECORD_SIZE - 1, bytes + 3 * CV_RECORD_SIZE + 5};
    wanted.records = records;
    for (size_t k = 0; k < sizeof rooms / sizeof *rooms; k++) {
        answered(planned(call, n, count, rooms[k]), wanted, text, line);
        told(memcmp(lent_at(RESULT), plan, bytes) == 0, "the plan's bytes", line);
        told(untouched(RESULT, bytes), "a plan writes its records alone", line);
    }
    if (records == 0)
        return;
    const cv_answer short_of = {.code = CV_ROOM, .place = records};
    plan_refused(line, call, n, count, bytes - 1, short_of);
    plan_refused(line, call, n, count, bytes - CV_RECORD_SIZE, short_of);
    plan_refused(line, call, n, count, 1, short_of);
    plan_refused(line, call, n, count, 0, short_of);
}
#define PLANS(call, n, demand, text, ...) plans(__LINE__, call, n, demand, text, (cv_answer){__VA_ARGS__})

static void small_plans(void)
{
    PLANS(cv_exact, 2, "2 1 / 1 2", "2:0 1;1:1 0", .longest = 3, .total = 3);
    PLANS(cv_exact, 2, "3 0 / 1 0", "3:0 1;1:1 0", .longest = 4, .total = 4, .empty = 4);
    PLANS(cv_exact, 3, "1 0 1 / 0 1 1 / 1 1 0", "1:0 2 1;1:2 1 0", .longest = 2, .total = 2);
    PLANS(cv_exact, 1, "0", "", .longest = 0);
    PLANS(cv_exact, 1, "65535", "65535:0", .longest = 65535, .total = 65535);
    PLANS(cv_exact, 2, "2 2 / 2 2", "2:0 1;2:1 0", .longest = 4, .total = 4);
    PLANS(cv_exact, 3, "0 0 0 / 0 0 0 / 0 0 0", "", .longest = 0);
    PLANS(cv_doubled, 2, "2 1 / 1 2", "2:0 1;1:1 0", .longest = 3, .total = 3);
    PLANS(cv_doubled, 1, "5", "5:0", .longest = 5, .total = 5);
    PLANS(cv_doubled, 4, "5 0 0 0/0 5 0 0/0 0 5 0/0 0 0 5", "4:0 1 2 3;1:0 1 2 3", .longest = 5, .total = 5);
    PLANS(cv_doubled, 4, "4 0 0 0/0 4 0 0/0 0 4 0/0 0 0 4", "4:0 1 2 3", .longest = 4, .total = 4);
    PLANS(cv_doubled, 1, "0", "", .longest = 0);
    PLANS(cv_doubled_every_rotation, 2, "2 1 / 1 2", "2:0 1;1:0 1;1:1 0", .longest = 3, .total = 4, .empty = 2);
    PLANS(cv_doubled_every_rotation, 1, "5", "5:0;4:0", .longest = 5, .total = 9, .empty = 4);
    PLANS(cv_doubled_every_rotation, 4, "5 0 0 0/0 5 0 0/0 0 5 0/0 0 0 5",
          "4:0 1 2 3;1:0 1 2 3;1:1 2 3 0;1:2 3 0 1;1:3 0 1 2", .longest = 5, .total = 8, .empty = 12);
    PLANS(cv_doubled_every_rotation, 4, "4 0 0 0/0 4 0 0/0 0 4 0/0 0 0 4", "4:0 1 2 3", .longest = 4, .total = 4);
    PLANS(cv_doubled_every_rotation, 2, "0 0 / 0 0", "", .longest = 0);
    PLANS(cv_quick, 2, "2 1 / 1 2", "1:0 1;1:1 0;1:0 1", .longest = 3, .total = 3);
    PLANS(cv_quick, 2, "3 0 / 1 0", "1:0 -;1:- 0;1:0 -;1:0 -", .longest = 4, .total = 4);
    PLANS(cv_quick, 3, "1 0 1 / 0 1 1 / 1 1 0", "1:0 1 -;1:- 2 0;1:2 - 1", .longest = 2, .total = 3);
    PLANS(cv_quick, 1, "0", "", .longest = 0);
    PLANS(cv_grating_doubled, 2, "2 1 / 1 2", "2:0 1;1:1 0", .total = 3);
    PLANS(cv_grating_doubled, 1, "5", "5:0", .total = 5);
    PLANS(cv_grating_doubled, 4, "5 0 0 0/0 5 0 0/0 0 5 0/0 0 0 5", "4:0 1 2 3;1:0 3 2 1;1:2 1 0 3", .total = 6);
    PLANS(cv_grating_doubled, 1, "0", "", .total = 0);
}

/* What every planner refuses, in its order. */
static void planner_refusals(planner *call)
{
    read_cells("1 2 3 4 5 6 7 8 9 9");
    for (int k = 0; k < NO_PORTS; k++) {
        PLAN_REFUSED(call, no_ports[k], 9, 680, .code = CV_PORTS);
        PLAN_REFUSED(call, no_ports[k], 0, 0, .code = CV_PORTS); /* before 2 and 5 */
    }
    PLAN_REFUSED(call, 3, 8, 680, .code = CV_CELLS, .place = 9);
    PLAN_REFUSED(call, 3, 10, 680, .code = CV_CELLS, .place = 9);
    PLAN_REFUSED(call, 1, 0, 0, .code = CV_CELLS, .place = 1);
    PLAN_REFUSED(call, 64, 4095, 680, .code = CV_CELLS, .place = 4096);
    PLAN_REFUSED(call, 64, 4097, 680, .code = CV_CELLS, .place = 4096);
    read_cells("65535 1 0 / 0 65535 0 / 0 1 0");
    PLAN_REFUSED(call, 3, 8, 680, .code = CV_CELLS, .place = 9); /* before 3 */
    PLAN_REFUSED(call, 3, 9, 680, .code = CV_LINE, .side = CV_INPUT, .place = 0);
    PLAN_REFUSED(call, 3, 9, 0, .code = CV_LINE, .side = CV_INPUT, .place = 0); /* before 5 */
    read_cells("65535 0 0 / 0 65535 0 / 0 1 0");
    PLAN_REFUSED(call, 3, 9, 680, .code = CV_LINE, .side = CV_OUTPUT, .place = 1);
    read_cells("65535 0 0 / 1 0 0 / 0 65535 1");
    PLAN_REFUSED(call, 3, 9, 680, .code = CV_LINE, .side = CV_INPUT, .place = 2); /* inputs before outputs */
    read_cells("0 0 0 / 0 0 0 / 4294967295 4294967295 4294967295");
    PLAN_REFUSED(call, 3, 9, 680, .code = CV_LINE, .side = CV_INPUT, .place = 2); /* a sum beyond 32 bits */
    read_cells("0 0 4294967295 / 0 0 1 / 0 0 0");
    PLAN_REFUSED(call, 3, 9, 680, .code = CV_LINE, .side = CV_INPUT, .place = 0); /* a column that is 0 in 32 bits */
    read_cells("65536");
    PLAN_REFUSED(call, 1, 1, 680, .code = CV_LINE, .side = CV_INPUT, .place = 0);
}

static void all_cells(uint32_t cell)
{
    for (int k = 0; k < CV_MOST_PORTS * CV_MOST_PORTS; k++)
        cells[k] = cell;
}

/* At 64 ports: a line over on the last port of either side, and plans that are known by their counts. */
static void largest_switch(planner *call)
{
    all_cells(0);
    cells[63 * 64 + 5] = 65536;
    PLAN_REFUSED(call, 64, 4096, 0, .code = CV_LINE, .side = CV_INPUT, .place = 63);
    all_cells(0);
    cells[5 * 64 + 63] = 65535;
    cells[6 * 64 + 63] = 1;
    PLAN_REFUSED(call, 64, 4096, 0, .code = CV_LINE, .side = CV_OUTPUT, .place = 63);
    all_cells(1);
    int grating = call == cv_grating_doubled;
    cv_answer wanted = {.records = 64, .longest = grating ? 0 : 64, .total = 64};
    size_t bytes = 64 * CV_RECORD_SIZE;
    answered(planned(call, 64, 4096, bytes), wanted, "all ones", __LINE__);
    ANSWERS(cv_check(64, cells, 4096, lent_at(RESULT), bytes), .records = 64, .longest = 64, .total = 64);
    PLAN_REFUSED(call, 64, 4096, bytes - 1, .code = CV_ROOM, .place = 64);
}

static void quick_alone(void)
{
    read_cells("1025");
    PLAN_REFUSED(cv_quick, 1, 1, 0, .code = CV_LONGEST); /* before 5 */
    read_cells("1024 0 / 1 0");
    PLAN_REFUSED(cv_quick, 2, 4, 0, .code = CV_LONGEST);
    read_cells("1024 0 / 0 0");
    PLAN_REFUSED(cv_quick, 2, 4, 1023 * CV_RECORD_SIZE, .code = CV_ROOM, .place = 1024);
    ANSWERS(planned(cv_quick, 2, 4, 1024 * CV_RECORD_SIZE), .records = 1024, .longest = 1024, .total = 1024);
    read_cells("65535 1 / 0 0");
    PLAN_REFUSED(cv_quick, 2, 4, 0, .code = CV_LINE, .side = CV_INPUT); /* before 4 */
}

/* The quiet plan within fixed limits, called as the other planners are. */
#define QUIET(name, limit) \
    static cv_answer name(uint64_t n, const uint32_t *from, size_t count, uint8_t *to, size_t room) \
    { \
        return cv_grating_quiet(n, from, count, limit, to, room); \
    }
QUIET(quiet_0, 0)
QUIET(quiet_1, 1)
QUIET(quiet_2, 2)
QUIET(quiet_3, 3)
QUIET(quiet_any, UINT64_MAX)

static cv_answer least_within(uint64_t n, size_t count, uint64_t limit)
{
    return cv_grating_least(n, lend_cells(cells, count), count, limit);
}

static void quiet_plans(void)
{
    const char *three = "3 1 0 / 0 2 2 / 1 0 2";
    PLANS(quiet_1, 3, three, "2:0 2 -;1:0 - -;1:1 - 2;1:- 1 0;1:- 1 -;1:- - 2", .longest = 4, .total = 7);
    PLANS(quiet_2, 3, three, "2:0 1 -;1:0 2 -;1:1 2 -;1:- - 0;2:- - 2", .longest = 4, .total = 7);
    PLANS(quiet_3, 3, three, "2:0 1 2;1:0 2 -;1:1 2 0", .longest = 4, .total = 4);
    PLANS(quiet_any, 3, three, "2:0 1 2;1:0 2 -;1:1 2 0", .longest = 4, .total = 4);
    PLANS(quiet_1, 1, "65535", "65535:0", .longest = 65535, .total = 65535);
    PLANS(quiet_1, 2, "0 0 / 0 0", "", .longest = 0);
    PLANS(quiet_1, 2, "7 0 / 0 7", "7:0 -;7:- 1", .longest = 7, .total = 14);
    read_cells(three);
    ANSWERS(least_within(3, 9, 1), .longest = 4, .total = 7);
    ANSWERS(least_within(3, 9, 2), .longest = 4, .total = 4);
    ANSWERS(least_within(3, 9, UINT64_MAX), .longest = 4, .total = 4);
    read_cells("0 0 / 0 0");
    ANSWERS(least_within(2, 4, UINT64_MAX), .longest = 0);
}

/* Code 17 comes after what the demand is refused for, and before 5. */
static void limit_refusals(void)
{
    planner_refusals(quiet_0);
    read_cells("1 2 / 3 4");
    PLAN_REFUSED(quiet_0, 2, 4, 0, .code = CV_LIMIT);
    PLAN_REFUSED(quiet_0, 2, 4, 4 * CV_RECORD_SIZE, .code = CV_LIMIT);
    for (int k = 0; k < NO_PORTS; k++)
        ANSWERS(least_within(no_ports[k], 4, 0), .code = CV_PORTS);
    ANSWERS(least_within(2, 3, 0), .code = CV_CELLS, .place = 4);
    ANSWERS(least_within(2, 4, 0), .code = CV_LIMIT);
    read_cells("0 0 / 0 65536");
    ANSWERS(least_within(2, 4, 0), .code = CV_LINE, .side = CV_INPUT, .place = 1);
    ANSWERS(least_within(2, 4, 1), .code = CV_LINE, .side = CV_INPUT, .place = 1);
    read_cells("65535 0 / 1 0");
    ANSWERS(least_within(2, 4, 1), .code = CV_LINE, .side = CV_OUTPUT, .place = 0);
}

/* ---- planners of the second edition ---- */

static uint32_t wide_cells[(CV2_MOST_PORTS + 1) * (CV2_MOST_PORTS + 1)];

static cv_answer wide_planned(planner *call, uint64_t n, size_t count, size_t room)
{
    const uint8_t *from = lend_bytes(CELLS, (const uint8_t *)wide_cells, count * sizeof *wide_cells);
    return call(n, (const uint32_t *)(const void *)from, count, lend(RESULT, room), room);
}

static void wide_refused(int line, planner *call, uint64_t n, size_t count, size_t room, cv_answer wanted)
{
    answered(wide_planned(call, n, count, room), wanted, "a refused plan of the second edition", line);
    told(untouched(RESULT, 0), "a refused plan writes nothing", line);
}
#define WIDE_REFUSED(call, n, count, room, ...) wide_refused(__LINE__, call, n, count, room, (cv_answer){__VA_ARGS__})

/* One slot for each input of the output of its own number: one record by every rule. */
static void wide_diagonal(planner *call, unsigned n)
{
    uint8_t wanted[CV2_RECORD_SIZE];
    memset(wide_cells, 0, sizeof wide_cells);
    memset(wanted, CV_IDLE, sizeof wanted);
    memcpy(wanted, (uint8_t[]){1, 0, (uint8_t)n, 2}, 4);
    for (unsigned i = 0; i < n; i++) {
        wide_cells[i * n + i] = 1;
        wanted[4 + i] = (uint8_t)i;
    }
    for (size_t more = 0; more < 2; more++) {
        ANSWERS(wide_planned(call, n, n * n, sizeof wanted + more), .records = 1, .longest = 1, .total = 1);
        CHECK(memcmp(lent_at(RESULT), wanted, sizeof wanted) == 0);
        CHECK(untouched(RESULT, sizeof wanted));
    }
    WIDE_REFUSED(call, n, n * n, sizeof wanted - 1, .code = CV_ROOM, .place = 1);
    WIDE_REFUSED(call, n, n * n + 1, sizeof wanted, .code = CV_CELLS, .place = n * n);
    WIDE_REFUSED(call, n, n * n - 1, 0, .code = CV_CELLS, .place = n * n);
}

/* What the second edition refuses at its own edges, and all ones at its most ports. */
static void wide_switch(planner *call)
{
    const uint64_t none[] = {0, 129, 256, UINT64_C(1) << 32, UINT64_MAX};
    for (size_t k = 0; k < sizeof none / sizeof *none; k++)
        WIDE_REFUSED(call, none[k], 129 * 129, 4 * CV2_RECORD_SIZE, .code = CV_PORTS);
    memset(wide_cells, 0, sizeof wide_cells);
    wide_cells[127 * 128 + 5] = 65536;
    WIDE_REFUSED(call, 128, 128 * 128, 0, .code = CV_LINE, .side = CV_INPUT, .place = 127);
    memset(wide_cells, 0, sizeof wide_cells);
    wide_cells[5 * 128 + 127] = 65535;
    wide_cells[6 * 128 + 127] = 1;
    WIDE_REFUSED(call, 128, 128 * 128, 0, .code = CV_LINE, .side = CV_OUTPUT, .place = 127);
    for (int k = 0; k < 128 * 128; k++)
        wide_cells[k] = 1;
    ANSWERS(wide_planned(call, 128, 128 * 128, 128 * CV2_RECORD_SIZE), .records = 128, .longest = 128, .total = 128);
    WIDE_REFUSED(call, 128, 128 * 128, 128 * CV2_RECORD_SIZE - 1, .code = CV_ROOM, .place = 128);
}

static void second_plans(void)
{
    planner *const planners[] = {cv2_exact, cv2_doubled, cv2_doubled_every_rotation, cv2_quick};
    const unsigned ports[] = {1, 64, 65, 127, 128};
    for (size_t k = 0; k < sizeof planners / sizeof *planners; k++) {
        for (size_t n = 0; n < sizeof ports / sizeof *ports; n++)
            wide_diagonal(planners[k], ports[n]);
        wide_switch(planners[k]);
    }
    memset(wide_cells, 0, sizeof wide_cells);
    wide_cells[64] = 1025;
    WIDE_REFUSED(cv2_quick, 65, 65 * 65, 0, .code = CV_LONGEST); /* before 5 */
}

/* ---- plans that are read ---- */

/* A call that reads a plan, in one form for all: plan's first so many bytes, and room for a result. */
typedef cv_answer reading(uint64_t n, size_t bytes, size_t room);

static const uint32_t nothing_asked[CV_MOST_PORTS * CV_MOST_PORTS];

static cv_answer checked(uint64_t n, size_t bytes, size_t room)
{
    (void)room;
    size_t count = n <= CV_MOST_PORTS ? n * n : 1;
    return cv_check(n, lend_cells(nothing_asked, count), count, lend_bytes(PLAN, plan, bytes), bytes);
}

static cv_answer measured(uint64_t n, size_t bytes, size_t room)
{
    (void)room;
    return cv_length(n, lend_bytes(PLAN, plan, bytes), bytes, 7);
}

static cv_answer joined(uint64_t n, size_t bytes, size_t room)
{
    const uint8_t *from = lend_bytes(PLAN, plan, bytes);
    return cv_join(n, from, bytes, lend(RESULT, room), room);
}

static cv_answer reported(uint64_t n, size_t bytes, size_t room)
{
    const uint8_t *from = lend_bytes(PLAN, plan, bytes);
    return cv_grating_report(n, from, bytes, lend(RESULT, room), room);
}

static cv_answer opened(uint64_t n, size_t bytes, size_t room)
{
    (void)room;
    return cv_open(n, lend_bytes(PLAN, plan, bytes), bytes);
}

static void read_refused(int line, reading *call, uint64_t n, size_t bytes, size_t room, uint64_t code, uint64_t place)
{
    lend(RESULT, 0);
    answered(call(n, bytes, room), (cv_answer){.code = code, .place = place}, "a refused plan", line);
    told(untouched(RESULT, 0), "a refused plan writes nothing", line);
}
#define READ_REFUSED(...) read_refused(__LINE__, __VA_ARGS__)

/* How a record for 3 ports is spoiled: a byte of it and what it becomes. */
static const struct { unsigned byte, value; } faults[] = {
    {0, 0},    /* hold 0 */
    {2, 2},    /* other ports */
    {2, 4},
    {2, 0},
    {3, 1},    /* the zero byte */
    {3, 255},
    {4, 3},    /* an output that is not there */
    {6, 254},
    {6, 64},
    {4, 1},    /* an output twice */
    {6, 0},
    {7, 0},    /* an input that is not there is not idle */
    {7, 3},
    {35, 254},
    {67, 0},
};
enum { FAULTS = sizeof faults / sizeof *faults };

/* Two records for 3 ports, the second of them spoiled, and a third that is spoiled too. */
static void spoil(int fault)
{
    read_plan(3, "2:0 1 2;5:0 1 2;1:2 - 0");
    plan[CV_RECORD_SIZE + faults[fault].byte] = (uint8_t)faults[fault].value;
    plan[2 * CV_RECORD_SIZE] = 0;
}

static void reading_refusals(reading *call, int judges)
{
    read_plan(3, "2:0 1 2;1:1 2 0;3:- - -");
    for (int k = 0; k < NO_PORTS; k++) {
        READ_REFUSED(call, no_ports[k], 204, 204, CV_PORTS, 0);
        READ_REFUSED(call, no_ports[k], 67, 0, CV_PORTS, 0); /* before 9 */
    }
    READ_REFUSED(call, 3, 1, 204, CV_TORN, 0);
    READ_REFUSED(call, 3, 67, 204, CV_TORN, 0);
    READ_REFUSED(call, 3, 69, 204, CV_TORN, 1);
    READ_REFUSED(call, 3, 203, 0, CV_TORN, 2);
    for (int fault = 0; judges && fault < FAULTS; fault++) {
        spoil(fault);
        READ_REFUSED(call, 3, 204, 204, CV_MALFORMED, 1);
        READ_REFUSED(call, 3, 204, 0, CV_MALFORMED, 1); /* before 5 and 13 */
        READ_REFUSED(call, 3, 203, 204, CV_TORN, 2);    /* 9 before 11 */
    }
    for (size_t k = 0; k < CV_MOST_RECORDS + 1; k++)
        put_record(k, 0, 1); /* no record is well formed */
    READ_REFUSED(call, 1, (CV_MOST_RECORDS + 1) * CV_RECORD_SIZE, 0, CV_RECORDS, 8192);
    READ_REFUSED(call, 1, (CV_MOST_RECORDS + 1) * CV_RECORD_SIZE + 1, 0, CV_TORN, 8193); /* before 10 */
    if (judges)
        READ_REFUSED(call, 1, CV_MOST_RECORDS * CV_RECORD_SIZE, 0, CV_MALFORMED, 0);
}

/* 8,192 records are read, at 64 ports and with the largest holds. */
static void most_records(void)
{
    enum { BYTES = CV_MOST_RECORDS * CV_RECORD_SIZE };
    const uint64_t total = UINT64_C(8192) * 65535;
    for (size_t k = 0; k < CV_MOST_RECORDS; k++) {
        put_record(k, 65535, 64);
        for (unsigned i = 0; i < 64; i++)
            plan[k * CV_RECORD_SIZE + 4 + i] = (uint8_t)((i + k) % 64);
    }
    ANSWERS(opened(64, BYTES, 0), .records = 8192);
    ANSWERS(measured(64, BYTES, 0), .records = 8192, .total = total, .length = total + 7 * 8192);
    ANSWERS(checked(64, BYTES, 0), .records = 8192, .total = total, .empty = 64 * total);
    ANSWERS(joined(64, BYTES, BYTES), .records = 8192, .total = total);
    ANSWERS(reported(64, BYTES, 8192), .records = 8192, .total = total);
    CHECK(lent_at(RESULT)[0] == 64 && lent_at(RESULT)[8191] == 64 && untouched(RESULT, 8192));
    READ_REFUSED(joined, 64, BYTES, BYTES - 1, CV_ROOM, 8192);
    READ_REFUSED(reported, 64, BYTES, 8191, CV_ROOM, 8192);
}

static void checks(void)
{
    size_t count = read_cells("2 1 / 1 2"), records = read_plan(2, "2:0 1;1:1 0");
    const uint32_t *asked = lend_cells(cells, count);
    const uint8_t *from = lend_bytes(PLAN, plan, records * CV_RECORD_SIZE);
    ANSWERS(cv_check(2, asked, 4, from, 136), .records = 2, .longest = 3, .total = 3);
    REFUSES(cv_check(2, asked, 4, from, 68), CV_UNCOVERED, 1);
    REFUSES(cv_check(2, asked, 4, from + 68, 68), CV_UNCOVERED, 0);
    REFUSES(cv_check(2, asked, 4, NULL, 0), CV_UNCOVERED, 0);
    REFUSES(cv_check(2, asked, 3, from, 136), CV_CELLS, 4);
    REFUSES(cv_check(2, asked, 4, from, 135), CV_TORN, 1);
    read_plan(2, "9:0 -;9:- 1;9:1 0");
    from = lend_bytes(PLAN, plan, 204);
    ANSWERS(cv_check(2, asked, 4, from, 204), .records = 3, .longest = 3, .total = 27, .empty = 30);
    read_cells("0 0 / 0 1");
    asked = lend_cells(cells, 4);
    REFUSES(cv_check(2, asked, 4, from, 68), CV_UNCOVERED, 3);
    read_cells("0 0 / 65535 1");
    asked = lend_cells(cells, 4);
    ANSWERS(cv_check(2, asked, 4, from, 67), .code = CV_LINE, .side = CV_INPUT, .place = 1); /* before 9 */
    read_cells("65535 0 / 0 0");
    asked = lend_cells(cells, 4);
    REFUSES(cv_check(2, asked, 4, from, 204), CV_UNCOVERED, 0);
    ANSWERS(cv_check(1, nothing_asked, 1, NULL, 0), .code = CV_DONE);
    read_cells("0 0 / 0 0");
    asked = lend_cells(cells, 4);
    read_plan(2, "7:- -");
    ANSWERS(cv_check(2, asked, 4, lend_bytes(PLAN, plan, 68), 68), .records = 1, .total = 7);
}

static void lengths(void)
{
    read_plan(1, "5:0;4:0");
    const uint8_t *from = lend_bytes(PLAN, plan, 136);
    ANSWERS(cv_length(1, from, 136, 0), .records = 2, .total = 9, .length = 9);
    ANSWERS(cv_length(1, from, 136, 3), .records = 2, .total = 9, .length = 12);
    ANSWERS(cv_length(1, from, 136, 65535), .records = 2, .total = 9, .length = 65544);
    ANSWERS(cv_length(1, from, 0, 9), .code = CV_DONE);
    ANSWERS(cv_length(1, NULL, 0, 65535), .code = CV_DONE);
    read_plan(2, "1:0 1;2:0 1;1:1 0;1:- 0;1:- 0;1:0 1");
    ANSWERS(cv_length(2, lend_bytes(PLAN, plan, 6 * 68), 6 * 68, 10), .records = 6, .total = 7, .length = 47);
    REFUSES(cv_length(3, lend_bytes(PLAN, plan, 6 * 68), 6 * 68, 10), CV_MALFORMED, 0);
}

/* This plan joined is that one: with just the room, with more, and refused with less. */
static void joins(int line, unsigned n, const char *text, const char *wanted, uint64_t total)
{
    static uint8_t before[16 * CV_RECORD_SIZE];
    size_t bytes = read_plan(n, text) * CV_RECORD_SIZE;
    memcpy(before, plan, bytes);
    size_t records = read_plan(n, wanted), fewer = records * CV_RECORD_SIZE;
    for (size_t more = 0; more <= 70; more += 35) {
        const uint8_t *from = lend_bytes(PLAN, before, bytes);
        uint8_t *to = lend(RESULT, fewer + more);
        answered(cv_join(n, from, bytes, to, fewer + more), (cv_answer){.records = records, .total = total}, text, line);
        told(fewer == 0 || memcmp(to, plan, fewer) == 0, wanted, line);
        told(untouched(RESULT, fewer), "joining writes its records alone", line);
    }
    for (size_t less = 1; less <= fewer; less += 67) {
        const uint8_t *from = lend_bytes(PLAN, before, bytes);
        uint8_t *to = lend(RESULT, fewer - less);
        answered(cv_join(n, from, bytes, to, fewer - less), (cv_answer){.code = CV_ROOM, .place = records}, text, line);
        told(untouched(RESULT, 0), "a refusal writes nothing", line);
    }
}
#define JOINS(...) joins(__LINE__, __VA_ARGS__)

static void all_joins(void)
{
    JOINS(2, "1:0 1;2:1 0;3:0 1", "4:0 1;2:1 0", 6);
    JOINS(2, "4:0 1;2:1 0", "4:0 1;2:1 0", 6);
    JOINS(2, "1:- -;1:0 -;1:- 0;1:- -", "2:- -;1:0 -;1:- 0", 4);
    JOINS(1, "65535:0;1:0", "65535:0;1:0", 65536);
    JOINS(1, "1:0;65535:0", "65535:0;1:0", 65536);
    JOINS(1, "65534:0;1:0", "65535:0", 65535);
    JOINS(1, "65535:0;65535:0", "65535:0;65535:0", 131070);
    JOINS(1, "40000:0;1:-;40000:0;40000:0;40000:0;40000:0", "65535:0;65535:0;65535:0;3395:0;1:-", 200001);
    JOINS(1, "", "", 0);
    ANSWERS(cv_join(1, NULL, 0, NULL, 0), .code = CV_DONE);
}

/* ---- the room beforehand ---- */

typedef cv_answer room_call(uint64_t n, uint64_t longest);

/* What no planner of an edition takes. */
static void room_refusals(room_call *call, uint64_t most_ports)
{
    const uint64_t ports[] = {0, most_ports + 1, 255, UINT64_C(1) << 32, UINT64_MAX};
    const uint64_t long_lines[] = {65536, 65537, UINT64_C(1) << 32, UINT64_MAX};
    for (size_t k = 0; k < sizeof ports / sizeof *ports; k++) {
        REFUSES(call(ports[k], 1), CV_PORTS, 0);
        REFUSES(call(ports[k], UINT64_MAX), CV_PORTS, 0); /* before 3 */
    }
    for (size_t k = 0; k < sizeof long_lines / sizeof *long_lines; k++) {
        REFUSES(call(1, long_lines[k]), CV_LINE, 0); /* no side; before 4 */
        REFUSES(call(most_ports, long_lines[k]), CV_LINE, 0);
    }
}

static void quick_rooms(room_call *call, uint64_t most_ports)
{
    ANSWERS(call(1, 0), .records = 0);
    ANSWERS(call(1, 1), .records = 1);
    ANSWERS(call(most_ports, 2), .records = 3);
    ANSWERS(call(most_ports, 1024), .records = 2047);
    REFUSES(call(1, 1025), CV_LONGEST, 0);
    REFUSES(call(most_ports, 65535), CV_LONGEST, 0);
}

static void rooms(void)
{
    room_call *const first[] = {cv_exact_room, cv_doubled_room, cv_quick_room};
    room_call *const second[] = {cv2_exact_room, cv2_doubled_room, cv2_quick_room};
    for (int k = 0; k < 3; k++) {
        room_refusals(first[k], 64);
        room_refusals(second[k], 128);
    }
    quick_rooms(cv_quick_room, 64);
    quick_rooms(cv2_quick_room, 128);
    for (int k = 0; k < 2; k++) {
        room_call *exact = k ? cv2_exact_room : cv_exact_room, *doubled = k ? cv2_doubled_room : cv_doubled_room;
        ANSWERS(exact(1, 0), .records = 0);
        ANSWERS(exact(1, 65535), .records = 1);
        ANSWERS(exact(2, 1), .records = 1);
        ANSWERS(exact(2, 65535), .records = 2);
        ANSWERS(exact(3, 4), .records = 4);
        ANSWERS(exact(3, 5), .records = 5);
        ANSWERS(exact(3, 6), .records = 5);
        ANSWERS(exact(64, 3969), .records = 3969);
        ANSWERS(exact(64, 3970), .records = 3970);
        ANSWERS(exact(64, 3971), .records = 3970);
        ANSWERS(doubled(1, 0), .records = 2);
        ANSWERS(doubled(64, 65535), .records = 128);
    }
    ANSWERS(cv2_exact_room(65, 65535), .records = 4097);
    ANSWERS(cv2_exact_room(128, 65535), .records = 16130);
    ANSWERS(cv2_doubled_room(128, 0), .records = 256);
}

/* ---- single records, reading step by step, the grating's report ---- */

static cv_answer written(unsigned hold, uint64_t n, const uint8_t *outputs, size_t room)
{
    const uint8_t *from = lend_bytes(LIST, outputs, 64);
    return cv_write((uint16_t)hold, n, from, lend(RESULT, room), room);
}

static void writing(void)
{
    read_plan(3, "513:2 - 0");
    uint8_t *outputs = plan + 4;
    for (size_t room = 68; room < 140; room += 35) {
        ANSWERS(written(513, 3, outputs, room), .records = 1, .total = 513);
        CHECK(memcmp(lent_at(RESULT), plan, 68) == 0 && untouched(RESULT, 68));
    }
    ANSWERS(written(65535, 64, outputs, 68), .records = 1, .total = 65535);
    ANSWERS(written(1, 3, outputs, 68), .records = 1, .total = 1);
    for (int k = 0; k < NO_PORTS; k++)
        REFUSES(written(0, no_ports[k], outputs, 0), CV_PORTS, 0); /* before 5 and 11 */
    REFUSES(written(0, 3, outputs, 67), CV_ROOM, 1); /* before 11 */
    REFUSES(written(1, 3, outputs, 0), CV_ROOM, 1);
    REFUSES(written(0, 3, outputs, 68), CV_MALFORMED, 0);
    REFUSES(written(1, 2, outputs, 68), CV_MALFORMED, 0);
    CHECK(untouched(RESULT, 0));
    for (int fault = 0; fault < FAULTS; fault++) {
        if (faults[fault].byte < 4)
            continue;
        spoil(fault);
        REFUSES(written(1, 3, plan + CV_RECORD_SIZE + 4, 136), CV_MALFORMED, 0);
        CHECK(untouched(RESULT, 0));
    }
    read_plan(1, "9:-");
    ANSWERS(written(9, 1, outputs, 68), .records = 1, .total = 9);
    ANSWERS(written(9, 64, outputs, 68), .records = 1, .total = 9);
    REFUSES(written(9, 1, (const uint8_t[64]){0}, 68), CV_MALFORMED, 0); /* inputs past N are not idle */
}

/* The step at a place of plan's first so many bytes is this one. */
static void steps(int line, uint64_t n, size_t bytes, uint64_t at, uint64_t kind, uint64_t place)
{
    cv_step step = cv_step_at(n, lend_bytes(PLAN, plan, bytes), bytes, at);
    cv_step wanted = {.kind = kind, .place = place};
    memset(wanted.outputs, CV_IDLE, sizeof wanted.outputs);
    if (kind == CV_STEP_RECORD) {
        const uint8_t *record = plan + at * CV_RECORD_SIZE;
        wanted.hold = record[0] + 256u * record[1];
        memcpy(wanted.outputs, record + 4, sizeof wanted.outputs);
    }
    told(memcmp(&step, &wanted, sizeof step) == 0, "a step", line);
}
#define STEPS(...) steps(__LINE__, __VA_ARGS__)

static void stepping(void)
{
    const uint64_t far[] = {3, 4, 8192, UINT64_C(1) << 32, UINT64_MAX / 68 + 1, UINT64_C(1) << 62, UINT64_MAX};
    read_plan(3, "2:0 1 2;65535:- - -;258:2 - 0");
    for (uint64_t at = 0; at < 3; at++)
        STEPS(3, 204, at, CV_STEP_RECORD, 0);
    for (size_t k = 0; k < sizeof far / sizeof *far; k++) {
        STEPS(3, 204, far[k], CV_STEP_END, 0);
        STEPS(2, 204, far[k], CV_STEP_END, 0);
    }
    STEPS(3, 0, 0, CV_STEP_END, 0);
    STEPS(2, 204, 1, CV_STEP_MALFORMED, 1); /* another N */
    for (int fault = 0; fault < FAULTS; fault++) {
        spoil(fault);
        STEPS(3, 204, 0, CV_STEP_RECORD, 0);
        STEPS(3, 204, 1, CV_STEP_MALFORMED, 1);
        STEPS(3, 204, 2, CV_STEP_MALFORMED, 2);
        STEPS(3, 203, 1, CV_STEP_END, 0); /* a plan that cannot be opened is at its end */
    }
    for (int k = 0; k < NO_PORTS; k++)
        STEPS(no_ports[k], 204, 0, CV_STEP_END, 0);
    for (size_t k = 0; k < CV_MOST_RECORDS + 1; k++)
        put_record(k, 1, 1);
    STEPS(1, CV_MOST_RECORDS * CV_RECORD_SIZE, 8191, CV_STEP_RECORD, 0);
    STEPS(1, CV_MOST_RECORDS * CV_RECORD_SIZE, 8192, CV_STEP_END, 0);
    STEPS(1, (CV_MOST_RECORDS + 1) * CV_RECORD_SIZE, 0, CV_STEP_END, 0);
}

static void reports(void)
{
    size_t bytes = read_plan(4, "1:0 1 2 3;2:0 3 2 1;3:- - - -;4:1 0 3 2;5:- 0 1 -;6:3 - - -") * CV_RECORD_SIZE;
    const uint8_t wanted[] = {4, 2, 0, 2, 2, 1};
    for (size_t room = sizeof wanted; room < 10; room += 3) {
        ANSWERS(reported(4, bytes, room), .records = 6, .total = 21);
        CHECK(memcmp(lent_at(RESULT), wanted, sizeof wanted) == 0);
        CHECK(untouched(RESULT, sizeof wanted));
    }
    READ_REFUSED(reported, 4, bytes, 5, CV_ROOM, 6);
    READ_REFUSED(reported, 4, bytes, 0, CV_ROOM, 6);
    ANSWERS(cv_grating_report(4, NULL, 0, NULL, 0), .code = CV_DONE);
    read_plan(1, "9:0;9:-");
    ANSWERS(reported(1, 136, 2), .records = 2, .total = 18);
    CHECK(lent_at(RESULT)[0] == 1 && lent_at(RESULT)[1] == 0);
}

static void opening(void)
{
    read_plan(3, "0:0 0 0;0:9 9 9"); /* nothing is judged yet */
    ANSWERS(opened(3, 136, 0), .records = 2);
    ANSWERS(opened(64, 136, 0), .records = 2);
    ANSWERS(opened(1, 68, 0), .records = 1);
    ANSWERS(opened(1, 0, 0), .records = 0);
}

/* ---- the console ---- */

static uint8_t second[3 * CV_RECORD_SIZE];

/* The record in force, its own bytes in the plans that were lent; the standby plan's bytes are in second. */
static void in_force(int line, size_t bytes, size_t standby, uint64_t slot, uint64_t which, uint64_t record)
{
    const uint8_t *from = lend_bytes(PLAN, plan, bytes);
    const uint8_t *then = lend_bytes(LIST, second, standby);
    cv_part part = cv_in_force(2, from, bytes, then, standby, slot);
    answered(part.answer, (cv_answer){.code = CV_DONE}, "a record in force", line);
    told(part.plan == which && part.start == record * 68 && part.size == 68, "which record is in force", line);
    const uint8_t *wanted = (which == CV_TONIGHT ? from : then) + record * 68;
    told(cv_part_bytes(part, from, then) == wanted, "a part of the plan itself", line);
}
#define IN_FORCE(...) in_force(__LINE__, __VA_ARGS__)

static void not_in_force(int line, uint64_t n, size_t bytes, size_t standby, uint64_t slot, cv_answer wanted)
{
    const uint8_t *from = lend_bytes(PLAN, plan, bytes);
    const uint8_t *then = lend_bytes(LIST, second, standby);
    cv_part part = cv_in_force(n, from, bytes, then, standby, slot);
    answered(part.answer, wanted, "a refused lookup", line);
    told(part.plan == 0 && part.start == 0 && part.size == 0, "an empty part", line);
    told(cv_part_bytes(part, from, then) == NULL, "no part", line);
}
#define NOT_IN_FORCE(n, bytes, standby, slot, ...) not_in_force(__LINE__, n, bytes, standby, slot, (cv_answer){__VA_ARGS__})

/* Tonight's plan has 3 and 2 slots, the standby plan 2 and 1. */
static void lay_two_plans(void)
{
    read_plan(2, "2:1 0;1:- -");
    memcpy(second, plan, 136);
    read_plan(2, "3:0 1;2:1 -");
}

static void lookups(void)
{
    const struct { uint64_t slot, which, record; } slots[] = {
        {0, CV_TONIGHT, 0}, {2, CV_TONIGHT, 0}, {3, CV_TONIGHT, 1}, {4, CV_TONIGHT, 1},
        {5, CV_STANDBY, 0}, {6, CV_STANDBY, 0}, {7, CV_STANDBY, 1}, {8, CV_STANDBY, 0},
        {10, CV_STANDBY, 1}, {UINT64_MAX, CV_STANDBY, 0}, {UINT64_MAX - 2, CV_STANDBY, 1},
    };
    lay_two_plans();
    for (size_t k = 0; k < sizeof slots / sizeof *slots; k++)
        IN_FORCE(136, 136, slots[k].slot, slots[k].which, slots[k].record);
    IN_FORCE(0, 136, 0, CV_STANDBY, 0); /* no plan tonight */
    IN_FORCE(0, 136, 2, CV_STANDBY, 1);
    IN_FORCE(136, 0, 4, CV_TONIGHT, 1); /* no standby plan */
    NOT_IN_FORCE(2, 136, 0, 5, .code = CV_NOT_IN_FORCE);
    NOT_IN_FORCE(2, 136, 0, UINT64_MAX, .code = CV_NOT_IN_FORCE);
    NOT_IN_FORCE(2, 0, 0, 0, .code = CV_NOT_IN_FORCE);
}

static void lookup_refusals(void)
{
    lay_two_plans();
    for (int k = 0; k < NO_PORTS; k++)
        NOT_IN_FORCE(no_ports[k], 135, 135, 0, .code = CV_PORTS);
    NOT_IN_FORCE(2, 135, 135, 9, .code = CV_TORN, .place = 1, .about = CV_TONIGHT);
    NOT_IN_FORCE(2, 136, 135, 0, .code = CV_TORN, .place = 1, .about = CV_STANDBY); /* the slot is tonight's */
    NOT_IN_FORCE(1, 136, 136, 0, .code = CV_MALFORMED, .place = 0, .about = CV_TONIGHT);
    second[CV_RECORD_SIZE + 3] = 1;
    NOT_IN_FORCE(2, 136, 136, 0, .code = CV_MALFORMED, .place = 1, .about = CV_STANDBY);
    NOT_IN_FORCE(2, 136, 136, 5, .code = CV_MALFORMED, .place = 1, .about = CV_STANDBY);
    plan[CV_RECORD_SIZE] = 0;
    NOT_IN_FORCE(2, 136, 136, 0, .code = CV_MALFORMED, .place = 1, .about = CV_TONIGHT);
    for (size_t k = 0; k < CV_MOST_RECORDS + 1; k++)
        put_record(k, 1, 2);
    size_t bytes = (CV_MOST_RECORDS + 1) * CV_RECORD_SIZE;
    NOT_IN_FORCE(2, bytes, 0, 0, .code = CV_RECORDS, .place = 8192, .about = CV_TONIGHT);
    const uint8_t *most = lend_bytes(PLAN, plan, bytes);
    cv_part part = cv_in_force(2, NULL, 0, most, bytes, 0);
    answered(part.answer, (cv_answer){.code = CV_RECORDS, .place = 8192, .about = CV_STANDBY}, "a long standby plan", __LINE__);
}

/* The demand is in cells, the wishes behind them; the plan's bytes are in plan. */
static cv_answer carried(uint64_t n, size_t asked, size_t wished, size_t bytes, uint64_t first, size_t count)
{
    const uint8_t *from = lend_bytes(PLAN, plan, bytes);
    const uint32_t *added = (const uint32_t *)(const void *)lend_bytes(LIST, (const uint8_t *)(cells + asked), wished * 4);
    uint32_t *into = (uint32_t *)(void *)lend(RESULT, count * 4);
    return cv_carry_over(n, lend_cells(cells, asked), asked, from, bytes, first, added, wished, into, count);
}

static void carries(int line, const char *both, uint64_t first, const uint32_t *wanted)
{
    read_cells(both);
    read_plan(2, "3:0 1;2:1 -;9:- 1");
    answered(carried(2, 4, 4, 204, first, 4), (cv_answer){.code = CV_DONE}, "a carry-over", line);
    told(memcmp(lent_at(RESULT), wanted, 16) == 0, "the new demand", line);
    told(untouched(RESULT, 16), "no other byte", line);
}
#define CARRIES(both, first, ...) carries(__LINE__, both, first, (const uint32_t[]){__VA_ARGS__})

static void not_carried(int line, uint64_t n, size_t asked, size_t wished, size_t bytes, uint64_t first, size_t count, cv_answer wanted)
{
    answered(carried(n, asked, wished, bytes, first, count), wanted, "a refused carry-over", line);
    told(untouched(RESULT, 0), "a refused carry-over writes nothing", line);
}
#define NOT_CARRIED(n, asked, wished, bytes, first, count, ...) \
    not_carried(__LINE__, n, asked, wished, bytes, first, count, (cv_answer){__VA_ARGS__})

static void carry_overs(void)
{
    CARRIES("4 1 / 1 5 / 0 0 / 0 0", 0, 4, 1, 1, 5);
    CARRIES("4 1 / 1 5 / 0 0 / 0 0", 1, 1, 1, 1, 2);
    CARRIES("4 1 / 1 5 / 0 0 / 0 0", 2, 1, 0, 1, 2); /* a slot granted beyond what was asked is lost */
    CARRIES("4 1 / 1 5 / 0 0 / 0 0", 3, 1, 0, 1, 0);
    CARRIES("4 1 / 1 5 / 1 2 / 3 4", 2, 2, 2, 4, 6);
    CARRIES("0 0 / 0 0 / 1 0 / 0 1", 3, 1, 0, 0, 1); /* a wish of 1 stays 1 */
    CARRIES("65535 0 / 0 65535 / 3 0 / 0 0", 1, 65535, 0, 0, 65532);
}

static void carry_over_refusals(void)
{
    read_cells("4 1 / 1 5 / 1 2 / 3 4");
    read_plan(2, "3:0 1;2:1 -;9:- 1");
    for (int k = 0; k < NO_PORTS; k++)
        NOT_CARRIED(no_ports[k], 4, 3, 203, 9, 4, .code = CV_PORTS);
    NOT_CARRIED(2, 3, 4, 203, 9, 4, .code = CV_CELLS, .place = 4);
    NOT_CARRIED(2, 4, 3, 203, 9, 4, .code = CV_CELLS, .place = 4);
    NOT_CARRIED(2, 4, 4, 203, 9, 5, .code = CV_CELLS, .place = 4);
    NOT_CARRIED(2, 4, 4, 203, 9, 4, .code = CV_TORN, .place = 2, .about = CV_PLAN);
    NOT_CARRIED(2, 4, 4, 204, 4, 4, .code = CV_FIRST_OVER, .place = 3);
    NOT_CARRIED(2, 4, 4, 204, UINT64_MAX, 4, .code = CV_FIRST_OVER, .place = 3);
    NOT_CARRIED(2, 4, 4, 0, 1, 4, .code = CV_FIRST_OVER, .place = 0);
    read_cells("1 65535 / 0 0 / 65535 0 / 1 0");
    NOT_CARRIED(2, 4, 4, 204, 4, 4, .code = CV_FIRST_OVER, .place = 3); /* before 3 */
    NOT_CARRIED(2, 4, 4, 204, 0, 4, .code = CV_LINE, .place = 0, .side = CV_INPUT, .about = CV_DEMAND);
    read_cells("1 65534 / 0 0 / 65535 0 / 1 0");
    NOT_CARRIED(2, 4, 4, 204, 0, 4, .code = CV_LINE, .place = 0, .side = CV_OUTPUT, .about = CV_WISHED);
    read_cells("1 0 / 0 65535 / 0 0 / 0 4");
    NOT_CARRIED(2, 4, 4, 204, 1, 4, .code = CV_LINE, .place = 1, .side = CV_INPUT, .about = CV_SUM);
    read_plan(2, "3:0 1;0:1 -;9:- 1");
    NOT_CARRIED(2, 4, 4, 204, 0, 4, .code = CV_MALFORMED, .place = 1, .about = CV_PLAN); /* behind the first records */
    NOT_CARRIED(2, 4, 4, 204, 9, 4, .code = CV_MALFORMED, .place = 1, .about = CV_PLAN); /* before 15 */
    for (size_t k = 0; k < CV_MOST_RECORDS + 1; k++)
        put_record(k, 1, 2);
    NOT_CARRIED(2, 4, 4, (CV_MOST_RECORDS + 1) * CV_RECORD_SIZE, 0, 4, .code = CV_RECORDS, .place = 8192, .about = CV_PLAN);
}

/* ---- tasks ---- */

/* One record as it is read. */
typedef struct { uint8_t input, output; uint32_t start, end; } task;

static uint8_t scheduled[64 * CV_TASK_SIZE];

static void put_word(uint8_t *at, uint32_t word)
{
    for (int k = 0; k < 4; k++)
        at[k] = (uint8_t)(word >> 8 * k);
}

/* Lays tasks one after the other, and tells how many bytes they take. */
static size_t lay_tasks(const task *tasks, size_t count)
{
    for (size_t k = 0; k < count; k++) {
        uint8_t *record = scheduled + k * CV_TASK_SIZE;
        memcpy(record, (uint8_t[]){tasks[k].input, tasks[k].output, 0, 0}, 4);
        put_word(record + 4, tasks[k].start);
        put_word(record + 8, tasks[k].end);
    }
    return count * CV_TASK_SIZE;
}

static void shops(int line, uint64_t n, const char *demand, uint16_t d, uint64_t last, const task *tasks, size_t count)
{
    size_t asked = read_cells(demand), bytes = lay_tasks(tasks, count);
    const uint32_t *from = lend_cells(cells, asked);
    uint8_t *into = lend(RESULT, bytes + 5);
    cv_answer wanted = {.code = CV_DONE, .records = count, .total = last};
    answered(cv_shop(n, from, asked, d, into, bytes + 5), wanted, "a schedule", line);
    told(memcmp(into, scheduled, bytes) == 0, "its tasks", line);
    told(untouched(RESULT, bytes), "no other byte", line);
    answered(cv_tasks(n, lend_bytes(PLAN, scheduled, bytes), bytes), wanted, "the schedule read", line);
    if (count == 0)
        return;
    wanted = (cv_answer){.code = CV_ROOM, .place = count};
    into = lend(RESULT, bytes - 1);
    answered(cv_shop(n, from, asked, d, into, bytes - 1), wanted, "a byte too few", line);
    told(untouched(RESULT, 0), "a refused schedule writes nothing", line);
}
#define SHOPS(n, demand, d, last, ...) \
    shops(__LINE__, n, demand, d, last, (const task[]){__VA_ARGS__}, sizeof (const task[]){__VA_ARGS__} / sizeof(task))

static void all_shops(void)
{
    SHOPS(2, "1 2 / 3 1", 1, 6, {0, 0, 0, 2}, {1, 1, 0, 2}, {1, 0, 2, 6}, {0, 1, 2, 5});
    SHOPS(2, "1 0 / 3 0", 0, 4, {0, 0, 0, 1}, {1, 0, 1, 4});
    SHOPS(2, "4 4 / 4 4", 65535, 131078, {0, 0, 0, 65539}, {1, 1, 0, 65539}, {1, 0, 65539, 131078}, {0, 1, 65539, 131078});
    SHOPS(1, "65535", 65535, 131070, {0, 0, 0, 131070});
    SHOPS(3, "0 0 2 / 0 0 1 / 1 0 0", 0, 3, {2, 0, 0, 1}, {0, 2, 0, 2}, {1, 2, 2, 3});
    read_cells("0 0 / 0 0");
    ANSWERS(cv_shop(2, lend_cells(cells, 4), 4, 9, NULL, 0), .code = CV_DONE);
}

static void shop_refusals(void)
{
    read_cells("1 2 / 3 1");
    const uint32_t *from = lend_cells(cells, 4);
    uint8_t *into = lend(RESULT, 48);
    for (int k = 0; k < NO_PORTS; k++)
        REFUSES(cv_shop(no_ports[k], from, 3, 1, into, 0), CV_PORTS, 0);
    REFUSES(cv_shop(2, from, 3, 1, into, 0), CV_CELLS, 4);
    REFUSES(cv_shop(2, from, 4, 1, into, 47), CV_ROOM, 4);
    REFUSES(cv_shop(2, from, 4, 1, NULL, 0), CV_ROOM, 4);
    read_cells("65535 1 / 1 65535");
    ANSWERS(cv_shop(2, lend_cells(cells, 4), 4, 0, into, 0), .code = CV_LINE, .place = 0, .side = CV_INPUT);
    read_cells("65535 0 / 1 0");
    ANSWERS(cv_shop(2, lend_cells(cells, 4), 4, 0, into, 0), .code = CV_LINE, .place = 0, .side = CV_OUTPUT);
    told(untouched(RESULT, 0), "a refused schedule writes nothing", __LINE__);
}

static cv_answer read_tasks(uint64_t n, size_t bytes) { return cv_tasks(n, lend_bytes(PLAN, scheduled, bytes), bytes); }

static void task_reading(void)
{
    const task sound[] = {{0, 0, 0, 4}, {1, 1, 0, 9}, {2, 2, 3, 5}, {2, 0, 5, 6}, {0, 2, 6, 7}};
    const task bad[] = {
        {3, 0, 5, 6}, {2, 3, 5, 6}, {2, 0, 5, 5}, {2, 0, 5, 4}, {2, 0, 2, 3}, /* ports, times, start */
        {0, 1, 3, 4}, {0, 2, 3, 4},                                           /* outputs fall, or stay */
        {2, 0, 4, 6}, {2, 1, 8, 9}, {1, 0, 8, 9},                             /* overlaps on either side */
    };
    size_t all = lay_tasks(sound, 5);
    ANSWERS(read_tasks(3, all), .code = CV_DONE, .records = 5, .total = 9);
    ANSWERS(read_tasks(64, all), .code = CV_DONE, .records = 5, .total = 9);
    ANSWERS(cv_tasks(3, NULL, 0), .code = CV_DONE);
    REFUSES(read_tasks(2, all), CV_MALFORMED, 2);
    for (int k = 0; k < NO_PORTS; k++)
        REFUSES(read_tasks(no_ports[k], all - 1), CV_PORTS, 0);
    REFUSES(read_tasks(3, all - 1), CV_TORN, 4);
    REFUSES(read_tasks(3, 11), CV_TORN, 0);
    for (int spare = 2; spare < 4; spare++) {
        lay_tasks(sound, 5);
        scheduled[3 * CV_TASK_SIZE + spare] = 1;
        REFUSES(read_tasks(3, all), CV_MALFORMED, 3);
    }
    for (size_t k = 0; k < sizeof bad / sizeof *bad; k++) {
        task spoiled[5];
        memcpy(spoiled, sound, sizeof spoiled);
        spoiled[3] = bad[k];
        lay_tasks(spoiled, 5);
        REFUSES(read_tasks(3, all), CV_MALFORMED, 3);
    }
    const task twice[] = {{0, 0, 0, 4}, {0, 0, 4, 5}, {0, 0, UINT32_MAX - 1, UINT32_MAX}}; /* one pair, at times apart */
    ANSWERS(read_tasks(1, lay_tasks(twice, 3)), .code = CV_DONE, .records = 3, .total = UINT32_MAX);
}

/* ---- the second edition, and the move ---- */

static uint8_t wide[(CV2_MOST_RECORDS + 1) * CV2_RECORD_SIZE], other[(CV_MOST_RECORDS + 1) * CV2_RECORD_SIZE];

/* Records of an edition for n ports: input i of record k has output (i + k) mod n, for k mod 7 + 1 slots. */
static void rotate(uint8_t *bytes, unsigned n, size_t size, uint8_t edition, size_t records)
{
    for (size_t k = 0; k < records; k++) {
        uint8_t *record = bytes + k * size;
        memset(record, CV_IDLE, size);
        memcpy(record, (uint8_t[]){(uint8_t)(k % 7 + 1), 0, (uint8_t)n, edition}, 4);
        for (unsigned i = 0; i < n && i + 4 < size; i++)
            record[4 + i] = (uint8_t)((i + k) % n);
    }
}

static void second_edition(void)
{
    const unsigned ports[] = {1, 64, 65, 127, 128};
    const size_t three = 3 * CV2_RECORD_SIZE;
    static uint32_t asked[CV2_MOST_PORTS * CV2_MOST_PORTS];
    for (size_t k = 0; k < sizeof ports / sizeof *ports; k++) {
        unsigned n = ports[k];
        rotate(wide, n, CV2_RECORD_SIZE, 2, 3);
        ANSWERS(cv2_open(n, wide, three), .records = 3);
        ANSWERS(cv2_length(n, wide, three, 2), .records = 3, .total = 6, .length = n == 1 ? 8 : 12);
        ANSWERS(cv2_join(n, wide, three, other, three), .records = n == 1 ? 1 : 3, .total = 6);
        REFUSES(cv2_join(n, wide, three, other, n == 1 ? CV2_RECORD_SIZE - 1 : three - 1), CV_ROOM, n == 1 ? 1 : 3);
        memset(asked, 0, sizeof asked);
        asked[n * n - 1] = 1;
        ANSWERS(cv2_check(n, asked, n * n, wide, three), .records = 3, .longest = 1, .total = 6, .empty = 6 * n - 1);
        asked[n * n - 1] = 7;
        REFUSES(cv2_check(n, asked, n * n, wide, three), CV_UNCOVERED, n * n - 1);
        cv2_step step = cv2_step_at(n, wide, three, 2);
        CHECK(step.kind == CV_STEP_RECORD && step.hold == 3 && memcmp(step.outputs, wide + 2 * CV2_RECORD_SIZE + 4, 128) == 0);
        CHECK(cv2_step_at(n, wide, three, 3).kind == CV_STEP_END);
        ANSWERS(cv2_write(3, n, wide + 2 * CV2_RECORD_SIZE + 4, other, CV2_RECORD_SIZE), .records = 1, .total = 3);
        CHECK(memcmp(other, wide + 2 * CV2_RECORD_SIZE, CV2_RECORD_SIZE) == 0);
        REFUSES(cv2_write(3, n, wide + 4, other, CV2_RECORD_SIZE - 1), CV_ROOM, 1);
        for (unsigned output = 128; output < CV_IDLE; output++) {
            wide[CV2_RECORD_SIZE + 4] = (uint8_t)output;
            REFUSES(cv2_length(n, wide, three, 0), CV_MALFORMED, 1);
        }
        rotate(wide, n, CV2_RECORD_SIZE, 0, 3); /* the other edition's byte */
        REFUSES(cv2_length(n, wide, three, 0), CV_MALFORMED, 0);
        CHECK(cv2_step_at(n, wide, three, 1).kind == CV_STEP_MALFORMED);
        REFUSES(cv2_length(n, wide, three - 1, 0), CV_TORN, 2);
    }
    for (uint64_t n = 129; n != 1; n = n == 129 ? 0 : 1) {
        REFUSES(cv2_open(n, wide, three), CV_PORTS, 0);
        REFUSES(cv2_wishes(n, NULL, 0, asked, 1), CV_PORTS, 0);
    }
    ANSWERS(cv2_wishes(128, (const uint8_t[]){127, 126, 0, 0, 0, 0, 0x40, 0x40}, 8, asked, 128 * 128), .records = 1);
    CHECK(asked[127 * 128 + 126] == 3 && asked[0] == 0);
    rotate(wide, 1, CV2_RECORD_SIZE, 2, CV2_MOST_RECORDS + 1);
    ANSWERS(cv2_open(1, wide, sizeof wide - CV2_RECORD_SIZE), .records = CV2_MOST_RECORDS);
    REFUSES(cv2_open(1, wide, sizeof wide), CV_RECORDS, CV2_MOST_RECORDS);
    REFUSES(cv2_join(1, wide, sizeof wide, other, sizeof other), CV_RECORDS, CV2_MOST_RECORDS);
}

static void moves(void)
{
    const unsigned ports[] = {1, 2, 63, 64};
    static uint8_t back[3 * CV_RECORD_SIZE + 1];
    for (size_t k = 0; k < sizeof ports / sizeof *ports; k++) {
        unsigned n = ports[k];
        rotate(wide, n, CV_RECORD_SIZE, 0, 3);
        REFUSES(cv_to_second(n, wide, 3 * CV_RECORD_SIZE, other, 3 * CV2_RECORD_SIZE - 1), CV_ROOM, 3);
        memset(other, FILL, sizeof other);
        ANSWERS(cv_to_second(n, wide, 3 * CV_RECORD_SIZE, other, sizeof other), .records = 3, .total = 6);
        CHECK(other[3] == 2 && other[4 + n] == CV_IDLE && other[3 * CV2_RECORD_SIZE] == FILL);
        memset(back, FILL, sizeof back);
        ANSWERS(cv_to_first(n, other, 3 * CV2_RECORD_SIZE, back, sizeof back), .records = 3, .total = 6);
        CHECK(memcmp(back, wide, 3 * CV_RECORD_SIZE) == 0 && back[3 * CV_RECORD_SIZE] == FILL);
        REFUSES(cv_to_first(n, other, 3 * CV2_RECORD_SIZE, back, 3 * CV_RECORD_SIZE - 1), CV_ROOM, 3);
        other[CV2_RECORD_SIZE + 4 + 64] = 0;
        REFUSES(cv_to_first(n, other, 3 * CV2_RECORD_SIZE, back, sizeof back), CV_MALFORMED, 1);
        REFUSES(cv_to_first(n, other, 3 * CV2_RECORD_SIZE - 1, back, sizeof back), CV_TORN, 2);
    }
    rotate(wide, 65, CV2_RECORD_SIZE, 2, 1);
    REFUSES(cv_to_first(65, wide, CV2_RECORD_SIZE, back, sizeof back), CV_PORTS, 0);
    REFUSES(cv_to_second(65, wide, CV2_RECORD_SIZE, back, sizeof back), CV_PORTS, 0);
    rotate(wide, 1, CV_RECORD_SIZE, 0, CV_MOST_RECORDS + 1);
    REFUSES(cv_to_second(1, wide, (CV_MOST_RECORDS + 1) * CV_RECORD_SIZE, other, sizeof other), CV_RECORDS, CV_MOST_RECORDS);
    cv_answer answer = cv_to_second(1, wide, CV_MOST_RECORDS * CV_RECORD_SIZE, other, sizeof other);
    CHECK(answer.code == CV_DONE && answer.records == CV_MOST_RECORDS);
    rotate(wide, 1, CV2_RECORD_SIZE, 2, CV_MOST_RECORDS + 1);
    REFUSES(cv_to_first(1, wide, (CV_MOST_RECORDS + 1) * CV2_RECORD_SIZE, other, sizeof other), CV_RECORDS, CV_MOST_RECORDS);
    answer = cv_to_first(1, wide, CV_MOST_RECORDS * CV2_RECORD_SIZE, other, sizeof other);
    CHECK(answer.code == CV_DONE && answer.records == CV_MOST_RECORDS);
}

/* The demand is in cells, the damaged plan's bytes are in plan. */
static cv_answer rescued(uint64_t n, size_t count, size_t bytes, size_t room, size_t entries)
{
    const uint8_t *damaged = lend_bytes(PLAN, plan, bytes);
    uint8_t *into = lend(RESULT, room), *dropped = lend(LIST, entries);
    return cv_rescue(n, lend_cells(cells, count), count, damaged, bytes, into, room, dropped, entries);
}

/* Of two ports, with three bytes more than the plan and the list take. */
static void rescues(int line, size_t bytes, const char *into, const uint8_t *entries, cv_answer wanted)
{
    size_t room = wanted.records * CV_RECORD_SIZE, size = wanted.dropped * CV_ENTRY_SIZE;
    answered(rescued(2, 4, bytes, room + 3, size + 3), wanted, "a rescue", line);
    read_plan(2, into);
    told(memcmp(lent_at(RESULT), plan, room) == 0, "the rescued plan", line);
    told(memcmp(lent_at(LIST), entries, size) == 0, "the list", line);
    told(untouched(RESULT, room) && untouched(LIST, size), "no other byte", line);
}
#define RESCUES(bytes, into, list, ...) rescues(__LINE__, bytes, into, (const uint8_t *)list, (cv_answer){__VA_ARGS__})

static void rescue(void)
{
    read_cells("2 1 / 1 2");
    read_plan(2, "2:0 1;0:1 0;1:- -");
    RESCUES(139, "2:0 1;1:1 0", "\1\0\1\0\2\0\7", .records = 2, .longest = 3, .total = 3, .added = 1, .dropped = 2);
    read_plan(2, "2:0 1;1:1 0");
    RESCUES(136, "2:0 1;1:1 0", "", .records = 2, .longest = 3, .total = 3);
    read_plan(2, "9:0 1");
    RESCUES(68, "9:0 1;1:1 0", "", .records = 2, .longest = 3, .total = 10, .empty = 14, .added = 1);
    read_plan(2, "5:- -;1:- 0");
    RESCUES(136, "5:- -;1:- 0;2:0 1;1:1 0", "", .records = 4, .longest = 3, .total = 9, .empty = 1, .added = 2);
    RESCUES(0, "2:0 1;1:1 0", "", .records = 2, .longest = 3, .total = 3, .added = 2);
    RESCUES(67, "2:0 1;1:1 0", "\0\0\7", .records = 2, .longest = 3, .total = 3, .added = 2, .dropped = 1);
    /* one record for each reason, and one with all faults but the first */
    read_cells("0 0 / 0 0");
    read_plan(2, "0:0 1;1:0 1;1:0 1;1:0 2;1:1 1;1:0 1 0;7:2 2 2");
    plan[1 * CV_RECORD_SIZE + 2] = 3;
    plan[2 * CV_RECORD_SIZE + 3] = 1;
    plan[6 * CV_RECORD_SIZE + 2] = plan[6 * CV_RECORD_SIZE + 3] = 1;
    RESCUES(476, "", "\0\0\1\0\1\0\2\0\2\0\3\0\3\0\4\0\4\0\5\0\5\0\6\0\6\0\2", .dropped = 7);
}

static void not_rescued(int line, uint64_t n, size_t count, size_t bytes, size_t room, size_t entries, cv_answer wanted)
{
    answered(rescued(n, count, bytes, room, entries), wanted, "a refused rescue", line);
    told(untouched(RESULT, 0) && untouched(LIST, 0), "a refused rescue writes nothing", line);
}
#define NOT_RESCUED(n, count, bytes, room, entries, ...) not_rescued(__LINE__, n, count, bytes, room, entries, (cv_answer){__VA_ARGS__})

static void rescue_refusals(void)
{
    const size_t most = CV_MOST_RECORDS * (size_t)CV_RECORD_SIZE;
    read_cells("2 1 / 1 65535");
    for (int k = 0; k < NO_PORTS; k++)
        NOT_RESCUED(no_ports[k], 3, 3, 0, 0, .code = CV_PORTS);
    NOT_RESCUED(2, 3, 3, 0, 0, .code = CV_CELLS, .place = 4);
    for (size_t k = 0; k < CV_MOST_RECORDS + 1; k++)
        put_record(k, 1, 2);
    NOT_RESCUED(2, 4, most + 1, 0, 0, .code = CV_LINE, .place = 1, .side = CV_INPUT);
    read_cells("2 1 / 1 2");
    NOT_RESCUED(2, 4, most + 1, most, 4, .code = CV_RECORDS, .place = 8192); /* in, the tail counted */
    NOT_RESCUED(2, 4, most + 68, most, 4, .code = CV_RECORDS, .place = 8192);
    NOT_RESCUED(2, 4, most - 68, 0, 0, .code = CV_RECORDS, .place = 8192); /* out: 8,191 and 2 */
    NOT_RESCUED(2, 4, most - 136, 0, 0, .code = CV_ROOM, .place = 8192);
    read_plan(2, "2:0 1;0:1 0");
    NOT_RESCUED(2, 4, 137, 135, 0, .code = CV_ROOM, .place = 2); /* before 16 */
    NOT_RESCUED(2, 4, 137, 136, 7, .code = CV_LIST_ROOM, .place = 2);
    NOT_RESCUED(2, 4, 136, 136, 0, .code = CV_LIST_ROOM, .place = 1);
}

int main(void)
{
    planner *const planners[] = {cv_exact, cv_doubled, cv_doubled_every_rotation, cv_quick, cv_grating_doubled, quiet_any};
    lay_out();
    CHECK(cv_version() == CV_VERSION);
    one_wish();
    wish_lists();
    wish_list_refusals();
    faulty_wishes();
    small_plans();
    for (size_t k = 0; k < sizeof planners / sizeof *planners; k++) {
        planner_refusals(planners[k]);
        largest_switch(planners[k]);
    }
    quick_alone();
    quiet_plans();
    limit_refusals();
    second_plans();
    reading_refusals(checked, 1);
    reading_refusals(measured, 1);
    reading_refusals(joined, 1);
    reading_refusals(reported, 1);
    reading_refusals(opened, 0);
    most_records();
    checks();
    lengths();
    all_joins();
    rooms();
    writing();
    stepping();
    reports();
    opening();
    lookups();
    lookup_refusals();
    carry_overs();
    carry_over_refusals();
    all_shops();
    shop_refusals();
    task_reading();
    second_edition();
    moves();
    rescue();
    rescue_refusals();
    printf("%d passed, %d failed\n", passed, failed);
    return failed != 0;
}
