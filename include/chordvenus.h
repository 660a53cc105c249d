/*
 * Chordvenus: from wishes to plans for a switch of N inputs and N outputs.
 *
 * The archive holds proved code: for every input each call ends, stays inside the memory it is
 * lent, and gives the one answer that its rules allow. Numbers such as §6 lead to the rules, in
 * docs/SPECIFICATION.md.
 *
 * Ports     N is 1 to 64 (CV_MOST_PORTS). Inputs and outputs are both numbered from 0 to N - 1.
 * Demand    N * N cells: cell i * N + j is how many slots input i asks of output j. A line is all
 *           cells of one input or all of one output; T is the largest sum of a line.
 * Plan      records (§5) of CV_RECORD_SIZE bytes and nothing before them: the hold in two bytes, low
 *           byte first; N; a zero byte; then 64 bytes, the output of each input or CV_IDLE. A record
 *           is well formed if its hold is not 0, its N is the one that the call is given, its fourth
 *           byte is 0, its first N outputs are idle or below N and all different but for the idle
 *           ones, and the others are idle.
 * Cover     a setting grants its hold to each pair that it joins. A plan covers a demand if every
 *           pair is granted what it asks or more; empty slots are what is granted beyond that, over
 *           all pairs. Total hold is what the holds of all records add up to.
 *
 * Records, ports and cells are counted from 0. A refusal changes no lent byte and answers 0 for
 * records, longest, total, length, empty, added and dropped. Success changes only what the call
 * says it writes. cv_words says in a sentence what a code means.
 *
 * Room      a call that writes records can be asked how many there will be: lend it a buffer of length 0,
 *           for which the pointer may be NULL. It answers code 5 and the place is that number, or it is
 *           done, where there are none to write. Room for every demand beforehand: cv_exact_room and the
 *           like for memory from malloc, CV_EXACT_ROOM and the like for arrays.
 *
 * What the compiler cannot see is left to the caller:
 *
 * Pointers  each leads to as many elements as the length after it says; cv_write's outputs are 64
 *           bytes. Where a length is 0 the pointer may be NULL. A pointer to cells is aligned for
 *           uint32_t, as that of an array or of malloc is. Memory that a call writes overlaps no
 *           other memory that it is lent; what is only read may be lent twice.
 * Threads   while a call runs, nobody else writes memory that is lent to it or reads what the call
 *           writes: no other thread, no signal handler, no device. No call allocates, keeps a
 *           pointer, or touches anything but its arguments and its stack, so calls may run at once,
 *           on memory of their own or on memory that all of them only read.
 * Stack     CV_STACK_EXACT and the like say how many bytes of stack must be left for each call.
 * Archive   libchordvenus.a and libchordvenus.so are for x86-64 Linux; from outside they take memcpy
 *           and memset alone. Header and archive belong together: an answer is returned by value, so
 *           neither of the two can gain a field alone. CV_VERSION is the header's number and
 *           cv_version() the archive's. A program built with one number does not link with an archive
 *           of another, and does not start with a shared library of another, whose name ends in it.
 */
#ifndef CHORDVENUS_H
#define CHORDVENUS_H

#include <stddef.h>
#include <stdint.h>

#ifdef __cplusplus
extern "C" {
#endif

/*
 * Goes up when a struct, a number or a call that is there becomes another, so that a program that was
 * compiled before would be wrong. What is added beside them leaves it as it is.
 */
#define CV_VERSION 1

/*
 * A file that includes this header refers to cv_interface_1, by that name and in a note of 20 bytes that
 * no instruction reads: so the linker finds an archive of another version out. A program that uses the
 * numbers alone, and links no archive, defines CV_NUMBERS_ALONE first.
 */
#if defined(__GNUC__) && defined(__x86_64__) && defined(__ELF__) && !defined(CV_NUMBERS_ALONE)
#define CV_QUOTED(number) #number
#define CV_BUILT_FOR(number) \
    __asm__(".pushsection .note.chordvenus,\"a\",@note\n\t.balign 4\n\t.long 3, 4, " CV_QUOTED(number) \
            "\n\t.asciz \"CV\"\n\t.balign 4\n\t.long cv_interface_" CV_QUOTED(number) "@PLT\n\t.popsection")
CV_BUILT_FOR(CV_VERSION);
#undef CV_BUILT_FOR
#undef CV_QUOTED
#endif

/* An answer that is thrown away is a mistake, and the compiler says so. */
#if (defined(__cplusplus) && __cplusplus >= 201703L) || (defined(__STDC_VERSION__) && __STDC_VERSION__ >= 202311L)
#define CV_NODISCARD [[nodiscard]]
#elif defined(__GNUC__)
#define CV_NODISCARD __attribute__((warn_unused_result))
#else
#define CV_NODISCARD
#endif

enum {
    CV_MOST_PORTS = 64,       /* the largest N */
    CV_RECORD_SIZE = 68,      /* bytes of a plan record */
    CV_WISH_SIZE = 8,         /* bytes of a wish record */
    CV_TASK_SIZE = 12,        /* bytes of a task record */
    CV_ENTRY_SIZE = 4,        /* bytes of an entry of cv_rescue's list */
    CV_IDLE = 255,            /* the output of an idle input */
    CV_MOST_LINE = 65535,     /* the largest line sum, and the largest wish */
    CV_MOST_QUICK = 1024,     /* the largest T of the quick cover */
    CV_MOST_RECORDS = 8192    /* the most records of a plan that is read */
};

/* The second edition (§18): switches of up to 128 ports, whose records have the byte 2 behind N and 128 outputs. */
enum {
    CV2_MOST_PORTS = 128,     /* the largest N */
    CV2_RECORD_SIZE = 132,    /* bytes of a plan record */
    CV2_MOST_RECORDS = 32768  /* the most records of a plan that is read */
};

/*
 * Bytes that hold the plan of every demand, for arrays: of n ports for the exact and the doubled plan, by
 * either rule, and of lines of up to `longest` slots for the quick cover, whose most is CV_MOST_QUICK.
 * cv_exact_room(n, CV_MOST_LINE), cv_doubled_room and cv_quick_room answer the same, in records.
 */
#define CV_EXACT_ROOM(n) (((n) * (n) - 2 * (n) + 2) * CV_RECORD_SIZE)
#define CV_DOUBLED_ROOM(n) (2 * (n) * CV_RECORD_SIZE)
#define CV_QUICK_ROOM(longest) (((longest) == 0 ? 0 : 2 * (longest) - 1) * CV_RECORD_SIZE)
#define CV2_EXACT_ROOM(n) (((n) * (n) - 2 * (n) + 2) * CV2_RECORD_SIZE)
#define CV2_DOUBLED_ROOM(n) (2 * (n) * CV2_RECORD_SIZE)
#define CV2_QUICK_ROOM(longest) (((longest) == 0 ? 0 : 2 * (longest) - 1) * CV2_RECORD_SIZE)

/* Bytes that hold the tasks of every demand of n ports. */
#define CV_SHOP_ROOM(n) ((n) * (n) * CV_TASK_SIZE)

/*
 * Bytes of stack that each call may use at any N, with all that it calls: more than the archive's
 * instructions can come to, which bindings/c/stack.py adds up; and bindings/c/stack.c makes each call on
 * a thread that has no more. A signal handler on the same stack comes on top.
 */
#define CV_STACK_VERSION 256
#define CV_STACK_WISH 256
#define CV_STACK_WISHES 2048
#define CV_STACK_EXACT 40960
#define CV_STACK_DOUBLED 40960
#define CV_STACK_DOUBLED_EVERY_ROTATION 40960
#define CV_STACK_QUICK 20480
#define CV2_STACK_EXACT 106496
#define CV2_STACK_DOUBLED 106496
#define CV2_STACK_DOUBLED_EVERY_ROTATION 106496
#define CV2_STACK_QUICK 73728
#define CV_STACK_EXACT_ROOM 256
#define CV_STACK_DOUBLED_ROOM 256
#define CV_STACK_QUICK_ROOM 256
#define CV2_STACK_EXACT_ROOM 256
#define CV2_STACK_DOUBLED_ROOM 256
#define CV2_STACK_QUICK_ROOM 256
#define CV_STACK_GRATING_DOUBLED 61440
#define CV_STACK_GRATING_QUIET 20480
#define CV_STACK_GRATING_LEAST 256
#define CV_STACK_GRATING_REPORT 1024
#define CV_STACK_CHECK 20480
#define CV_STACK_LENGTH 1024
#define CV_STACK_JOIN 90112
#define CV_STACK_WRITE 1024
#define CV_STACK_OPEN 256
#define CV_STACK_STEP_AT 1024
#define CV2_STACK_WISHES 4096
#define CV2_STACK_CHECK 69632
#define CV2_STACK_LENGTH 1024
#define CV2_STACK_JOIN 294912
#define CV2_STACK_WRITE 1024
#define CV2_STACK_OPEN 256
#define CV2_STACK_STEP_AT 1024
#define CV_STACK_TO_SECOND 1024
#define CV_STACK_TO_FIRST 1024
#define CV_STACK_IN_FORCE 1024
#define CV_STACK_CARRY_OVER 20480
#define CV_STACK_SHOP 2048
#define CV_STACK_TASKS 1024
#define CV_STACK_RESCUE 65536

/* cv_answer.code (§9.7): when it is given, and what cv_answer.place then is. */
enum {
    CV_DONE = 0,        /* nothing was refused; 0 */
    CV_PORTS = 1,       /* N is not 1 to 64, or in cv2_ calls 1 to 128; 0 */
    CV_CELLS = 2,       /* some other number of cells than N * N was lent; N * N */
    CV_LINE = 3,        /* a line has more than 65,535 slots; the first such input, or else the first
                           such output: side says which of the two. Where a T is given and no
                           demand: T is more than 65,535; 0, with no side */
    CV_LONGEST = 4,     /* the quick cover alone: T is more than 1,024; 0 */
    CV_ROOM = 5,        /* there is less room than the result takes; the records it has */
    CV_NOT_FINITE = 6,  /* the wish is no finite number; its record */
    CV_BELOW_ZERO = 7,  /* the wish is less than 0; its record */
    CV_ABOVE_MOST = 8,  /* the wish is more than 65,535; its record */
    CV_TORN = 9,        /* bytes are left over after the last whole record; whole records */
    CV_RECORDS = 10,    /* a plan that is read, or that cv_rescue would write, has more than 8,192
                           records, or in cv2_ calls 32,768; so many */
    CV_MALFORMED = 11,  /* a record is not well formed, or a wish has a port that is not below N or a
                           third or fourth byte other than 0; its number. Of tasks: cv_tasks says */
    CV_NAMED = 12,      /* the wish names a pair that a record before it named; its record */
    CV_UNCOVERED = 13,  /* the plan does not cover the demand; the first cell granted too little */
    CV_NOT_IN_FORCE = 14, /* tonight's plan is over, and the standby plan has no records; 0 */
    CV_FIRST_OVER = 15, /* more first records than the plan has; the records it has */
    CV_LIST_ROOM = 16,  /* there is less room than the list takes; the entries it has */
    CV_LIMIT = 17       /* at most 0 inputs may share a wavelength; 0 */
};

/* cv_answer.side */
enum { CV_NO_SIDE = 0, CV_INPUT = 1, CV_OUTPUT = 2 };

/* cv_answer.about, with codes 3, 9, 10 and 11 of cv_in_force and cv_carry_over; and cv_part.plan */
enum { CV_TONIGHT = 1, CV_STANDBY = 2, CV_PLAN = 3, CV_DEMAND = 4, CV_WISHED = 5, CV_SUM = 6 };

/* The third byte of an entry of cv_rescue's list (§19.2): why the record was dropped. */
enum {
    CV_BAD_HOLD = 1,      /* its hold is 0 */
    CV_BAD_PORTS = 2,     /* its N is another */
    CV_BAD_SPARE = 3,     /* its fourth byte is not 0 */
    CV_BAD_OUTPUT = 4,    /* one of its first N outputs is neither idle nor below N */
    CV_OUTPUT_TWICE = 5,  /* two of its first N inputs have one output */
    CV_PAST_PORTS = 6,    /* an output behind the first N is not idle */
    CV_TORN_TAIL = 7      /* the bytes behind the last whole record are no record */
};

/* cv_step.kind */
enum { CV_STEP_RECORD = 0, CV_STEP_END = 1, CV_STEP_MALFORMED = 2 };

/* What every call answers. What does not apply is 0. */
typedef struct {
    uint64_t code;     /* CV_DONE or the refusal */
    uint64_t place;    /* where, as the code says */
    uint64_t side;     /* code 3 of a demand: CV_INPUT or CV_OUTPUT; else CV_NO_SIDE */
    uint64_t records;  /* records of the plan or of the wish list, or that suffice for a plan; tasks */
    uint64_t longest;  /* T of the demand */
    uint64_t total;    /* total hold of the plan; of tasks the latest end */
    uint64_t length;   /* length of the plan */
    uint64_t empty;    /* empty slots of the plan */
    uint64_t added;    /* cv_rescue alone: the records added to the plan; else 0 */
    uint64_t dropped;  /* cv_rescue alone: the records dropped from the plan; else 0 */
    uint64_t about;    /* which of several plans or demands the code is about, CV_TONIGHT to CV_SUM;
                          else 0 */
} cv_answer;

/* One step of reading a plan. */
typedef struct {
    uint64_t kind;        /* CV_STEP_RECORD, CV_STEP_END or CV_STEP_MALFORMED (code 11) */
    uint64_t place;       /* CV_STEP_MALFORMED: the record's number; else 0 */
    uint64_t hold;        /* CV_STEP_RECORD: its hold; else 0 */
    uint8_t outputs[64];  /* CV_STEP_RECORD: its outputs by input; else all CV_IDLE */
} cv_step;

/* One step through a plan of the second edition: as cv_step, with 128 outputs */
typedef struct cv2_step {
    uint64_t kind;
    uint64_t place;
    uint64_t hold;
    uint8_t outputs[128];
} cv2_step;

/* Where the record in force stands: `size` bytes of a plan, from byte `start` on. */
typedef struct {
    cv_answer answer;  /* every count in it is 0 */
    uint64_t plan;     /* CV_TONIGHT or CV_STANDBY; 0 where the call is refused */
    uint64_t start;    /* 0 where it is refused */
    uint64_t size;     /* CV_RECORD_SIZE; 0 where it is refused */
} cv_part;

/* The archive was made for these sizes. */
#if defined(__cplusplus) && __cplusplus >= 201103L
static_assert(sizeof(cv_answer) == 88, "11 numbers of 8 bytes");
static_assert(sizeof(cv_step) == 88, "3 numbers of 8 bytes and 64 bytes");
static_assert(sizeof(cv_part) == 112, "an answer and 3 numbers of 8 bytes");
static_assert(sizeof(cv2_step) == 152, "3 numbers of 8 bytes and 128 bytes");
static_assert(sizeof(size_t) == 8, "a length has 8 bytes");
#elif defined(__STDC_VERSION__) && __STDC_VERSION__ >= 201112L
_Static_assert(sizeof(cv_answer) == 88, "11 numbers of 8 bytes");
_Static_assert(sizeof(cv_step) == 88, "3 numbers of 8 bytes and 64 bytes");
_Static_assert(sizeof(cv_part) == 112, "an answer and 3 numbers of 8 bytes");
_Static_assert(sizeof(cv2_step) == 152, "3 numbers of 8 bytes and 128 bytes");
_Static_assert(sizeof(size_t) == 8, "a length has 8 bytes");
#endif

/* ---- chordvenus-version: header and archive, and words for codes ---- */

/*
 * The version of the header that the archive belongs to: CV_VERSION.
 * Writes: nothing.
 */
CV_NODISCARD uint64_t cv_version(void);

/* What a code means, in one sentence. */
static inline const char *cv_words(uint64_t code)
{
    switch (code) {
    case CV_DONE: return "Nothing was refused.";
    case CV_PORTS: return "The number of ports is 0 or over the largest.";
    case CV_CELLS: return "The cells lent are not as many as the ports squared.";
    case CV_LINE: return "A line sums to more than 65,535 slots.";
    case CV_LONGEST: return "A line sums to more than 1,024 slots, the most of the quick cover.";
    case CV_ROOM: return "The result has more records than there is room for.";
    case CV_NOT_FINITE: return "A wish is not a finite number.";
    case CV_BELOW_ZERO: return "A wish is below zero.";
    case CV_ABOVE_MOST: return "A wish is above 65,535.";
    case CV_TORN: return "Bytes are left over after the last whole record.";
    case CV_RECORDS: return "The plan has more records than are read.";
    case CV_MALFORMED: return "A record is not well formed.";
    case CV_NAMED: return "A wish names a pair that was named before.";
    case CV_UNCOVERED: return "The plan does not cover the demand.";
    case CV_NOT_IN_FORCE: return "Tonight's plan is over, and the standby plan has no records.";
    case CV_FIRST_OVER: return "There are more first records than the plan has.";
    case CV_LIST_ROOM: return "The list has more entries than there is room for.";
    case CV_LIMIT: return "At most 0 inputs may share a wavelength.";
    default: return "There is no such code.";
    }
}

/* ---- chordvenus-wishes: from wishes to a demand ---- */

/*
 * One wish, as the bits of a binary32, to slots (§4.1 to §4.4). A wish above zero is rounded up to
 * whole slots and is never worth fewer than 2; zero and minus zero are worth 0.
 * Codes: 6, 7, 8, all with place 0.
 * Done:  total is the slots.
 */
CV_NODISCARD cv_answer cv_wish(uint32_t bits);

/*
 * A wish list to a demand (§4.5 to §4.8), each wish by the rule of cv_wish. The list is records of
 * CV_WISH_SIZE bytes and nothing before them: input, output, a zero byte and another, and the four
 * bytes of a binary32, low byte first. Pairs that no record names ask nothing; a wish of zero names
 * its pair like any other. Lines are not checked here.
 * Codes:  1, 2, 9, then of the first faulty record the first of 11, 12, 6, 7, 8.
 * Writes: all N * N cells.
 * Done:   records is the number of wish records.
 */
CV_NODISCARD cv_answer cv_wishes(uint64_t n, const uint8_t *list, size_t list_len, uint32_t *cells, size_t cells_len);

/* ---- chordvenus-plans: from a demand to a plan ---- */

/*
 * The exact plan (§6): cells in order are filled up so that every line sums to T; then, until all is
 * zero, a full setting over cells that are not zero is taken off for the smallest of its cells. Of
 * all such settings it is the one whose outputs come first in dictionary order. Total hold is T, and
 * no plan that covers the demand has less. At most T records, and at most N * N - 2 * N + 2.
 * Codes:  1, 2, 3, 5.
 * Writes: the plan's records, at the start of plan; no later byte. The demand is only read.
 * Done:   records, longest, total, empty.
 */
CV_NODISCARD cv_answer cv_exact(uint64_t n, const uint32_t *cells, size_t cells_len, uint8_t *plan, size_t plan_len);

/*
 * The doubled plan (§7): few records, at most twice the time. With u = T / N rounded up, its first
 * part is the exact plan of the quotients (each cell divided by u), every hold multiplied by u. Its
 * second part gives each pair what the division left over: rotation k joins input i to output
 * (i + k) mod N and is held as long as the pair of it with the most left over needs; where that is 0,
 * it is not there. At most 2 * N records, total hold at most 2 * T - 1; no records when T is 0.
 * Codes:  1, 2, 3, 5.
 * Writes: the plan's records, at the start of plan; no later byte. The demand is only read.
 * Done:   records, longest, total, empty.
 */
CV_NODISCARD cv_answer cv_doubled(uint64_t n, const uint32_t *cells, size_t cells_len, uint8_t *plan, size_t plan_len);

/*
 * The doubled plan by the rule before that (§7.5), for controllers that expect all N rotations: where
 * u is 2 or more, every rotation is there, with hold u - 1. The same bounds hold. Code 5 counts the
 * records of this rule.
 * Codes, writes, done: as cv_doubled.
 */
CV_NODISCARD cv_answer cv_doubled_every_rotation(uint64_t n, const uint32_t *cells, size_t cells_len, uint8_t *plan, size_t plan_len);

/*
 * The quick cover (§8): one record of hold 1 for each slot s = 0, 1, .. until nothing is left. In
 * slot s the inputs choose one after the other, s mod N first and on around: the lowest output that no
 * input has chosen yet and that the pair still wants, or none. T is at most 1,024. T to 2 * T - 1
 * records; none when T is 0.
 * Codes:  1, 2, 3, 4, 5.
 * Writes: the plan's records, at the start of plan; no later byte. The demand is only read.
 * Done:   records, longest, total, empty.
 */
CV_NODISCARD cv_answer cv_quick(uint64_t n, const uint32_t *cells, size_t cells_len, uint8_t *plan, size_t plan_len);

/*
 * The same plans in the second edition (§18), where N is 1 to 128: a record has CV2_RECORD_SIZE bytes,
 * hold, N, the byte 2 and 128 outputs. Codes in the same order, code 5 by that size.
 * Codes, writes, done: as cv_exact, cv_doubled, cv_doubled_every_rotation and cv_quick.
 */
CV_NODISCARD cv_answer cv2_exact(uint64_t n, const uint32_t *cells, size_t cells_len, uint8_t *plan, size_t plan_len);
CV_NODISCARD cv_answer cv2_doubled(uint64_t n, const uint32_t *cells, size_t cells_len, uint8_t *plan, size_t plan_len);
CV_NODISCARD cv_answer cv2_doubled_every_rotation(uint64_t n, const uint32_t *cells, size_t cells_len, uint8_t *plan, size_t plan_len);
CV_NODISCARD cv_answer cv2_quick(uint64_t n, const uint32_t *cells, size_t cells_len, uint8_t *plan, size_t plan_len);

/* ---- chordvenus-room: the room of a plan beforehand ---- */

/*
 * The room of each planner beforehand (§20), from N and a T alone: so many records suffice for every
 * demand of N ports whose lines sum to that T or less, and then the planner never answers code 5.
 * For the exact plan that is T or N * N - 2 * N + 2, whichever is less; for the doubled plan, by either
 * rule and at any T, 2 * N; for the quick cover 2 * T - 1, and none where T is 0.
 * Codes:  1, 3 (place 0, no side); 4 of the quick cover.
 * Writes: nothing.
 * Done:   records.
 */
CV_NODISCARD cv_answer cv_exact_room(uint64_t n, uint64_t longest);
CV_NODISCARD cv_answer cv_doubled_room(uint64_t n, uint64_t longest);
CV_NODISCARD cv_answer cv_quick_room(uint64_t n, uint64_t longest);

/* The same for the second edition's records, of 132 bytes, where N is 1 to 128. */
CV_NODISCARD cv_answer cv2_exact_room(uint64_t n, uint64_t longest);
CV_NODISCARD cv_answer cv2_doubled_room(uint64_t n, uint64_t longest);
CV_NODISCARD cv_answer cv2_quick_room(uint64_t n, uint64_t longest);

/* ---- chordvenus-grating: plans for the grating fabric ---- */

/*
 * The doubled plan for the grating fabric (§13.5), where the wavelength of a pair, input i to output
 * j, is (j - i) mod N. It is cv_doubled's but for the rotations: in their place stand
 * anti-rotations, of which number k gives input i the output (k - i) mod N, held by the same rule.
 * None of them has more than two inputs on a wavelength, or more than one where N is odd. Records of
 * the first part may; cv_grating_report tells. The bounds are cv_doubled's.
 * Codes:  1, 2, 3, 5.
 * Writes: the plan's records, at the start of plan; no later byte. The demand is only read.
 * Done:   records, total.
 */
CV_NODISCARD cv_answer cv_grating_doubled(uint64_t n, const uint32_t *cells, size_t cells_len, uint8_t *plan, size_t plan_len);

/*
 * The quiet plan for the grating fabric (§24): no setting has more than `limit` inputs on one
 * wavelength. While a cell is not 0, the inputs in order each take the lowest free output with slots
 * left whose wavelength fewer than `limit` inputs use in this setting, or stay idle; the setting is
 * held for the smallest cell that it joins, and that is taken off. Every pair is granted exactly its
 * cell. There are at most as many records as cells that are not 0. Total is less than three times
 * that of the shortest plan that covers the demand within the limit, and at most 2T - 1 + (W - 1) / limit
 * rounded down, W being the most slots asked on one wavelength. A plan buffer for as many records as
 * there are cells that are not 0 saves a second run.
 * Codes:  1, 2, 3, 17, 5.
 * Writes: the plan's records, at the start of plan; no later byte. The demand is only read.
 * Done:   records, longest, total; empty is 0.
 */
CV_NODISCARD cv_answer cv_grating_quiet(uint64_t n, const uint32_t *cells, size_t cells_len, uint64_t limit, uint8_t *plan, size_t plan_len);

/*
 * The least total that any plan can have that covers the demand and has no more than `limit` inputs of
 * a setting on one wavelength (§24): the larger of T and W / limit rounded up, W being the most slots
 * asked on one wavelength.
 * Codes:  1, 2, 3, 17.
 * Writes: nothing.
 * Done:   longest, total.
 */
CV_NODISCARD cv_answer cv_grating_least(uint64_t n, const uint32_t *cells, size_t cells_len, uint64_t limit);

/*
 * What the records of a plan from anywhere do on the grating fabric (§13.3): for each the largest
 * number of inputs on one wavelength, of those that are not idle; 0 where all are.
 * Codes:  1, 9, 10, 11, then 5 where report is shorter than one byte for each record.
 * Writes: one byte for each record, in order, at the start of report; no later byte.
 * Done:   records, total.
 */
CV_NODISCARD cv_answer cv_grating_report(uint64_t n, const uint8_t *plan, size_t plan_len, uint8_t *report, size_t report_len);

/* ---- chordvenus-check: a plan from anywhere checked, measured, joined ---- */

/*
 * Checks a plan from anywhere against a demand (§10).
 * Codes:  1, 2, 3, 9, 10, 11, 13.
 * Writes: nothing.
 * Done:   records, longest, total, empty; the plan covers the demand.
 */
CV_NODISCARD cv_answer cv_check(uint64_t n, const uint32_t *cells, size_t cells_len, const uint8_t *plan, size_t plan_len);

/*
 * The length of a plan at a switching time of d slots (§11): total hold, and d for each record that
 * moves the mirrors, which are the first and those whose outputs differ from the record before. An
 * empty plan has length 0.
 * Codes:  1, 9, 10, 11.
 * Writes: nothing.
 * Done:   length, records, total.
 */
CV_NODISCARD cv_answer cv_length(uint64_t n, const uint8_t *plan, size_t plan_len, uint16_t d);

/*
 * Joins equal settings (§12): the plan is written anew into a second buffer, each setting once,
 * where it came first, held for the sum of its holds. A sum that no record can hold becomes as many
 * records of 65,535 as fit into it and one more for the rest, unless the rest is 0. No pair is
 * granted more or less than before, total hold is the same, and joining the joined plan gives it
 * again. Never more records than were read.
 * Codes:  1, 9, 10, 11, 5.
 * Writes: the joined plan's records, at the start of joined; no later byte. The plan is only read.
 * Done:   records and total of the joined plan.
 */
CV_NODISCARD cv_answer cv_join(uint64_t n, const uint8_t *plan, size_t plan_len, uint8_t *joined, size_t joined_len);

/* ---- chordvenus-records: plans written and read record by record ---- */

/*
 * Writes one record (§5.8). All 64 outputs are given; those of inputs from N on are CV_IDLE.
 * Codes:  1, 5 (place 1), 11 (place 0).
 * Writes: the first CV_RECORD_SIZE bytes of plan.
 * Done:   records is 1, total is the hold.
 */
CV_NODISCARD cv_answer cv_write(uint16_t hold, uint64_t n, const uint8_t outputs[64], uint8_t *plan, size_t plan_len);

/*
 * Opens a plan for an N (§5.4). No record is judged yet.
 * Codes:  1, 9, 10.
 * Writes: nothing.
 * Done:   records.
 */
CV_NODISCARD cv_answer cv_open(uint64_t n, const uint8_t *plan, size_t plan_len);

/*
 * The step at record `at` of a plan opened for n (§5.5): that record, the end (at every `at` from the
 * number of records on, and at every `at` where cv_open refuses the plan), or code 11 where that
 * record is not well formed. A reader starts at 0, goes on by one after each record, and stays where
 * it is at the end and at code 11.
 * Writes: nothing.
 */
CV_NODISCARD cv_step cv_step_at(uint64_t n, const uint8_t *plan, size_t plan_len, uint64_t at);

/* ---- chordvenus-second: the second edition, and the way between the two ---- */

/*
 * The same calls for switches of up to 128 ports (§18): code 1 is given where N is 0 or more than
 * CV2_MOST_PORTS, records have CV2_RECORD_SIZE bytes, code 10 and its place are CV2_MOST_RECORDS, and
 * cv2_write's outputs are 128 bytes. All else is as the cv_ call of the same name says.
 */
CV_NODISCARD cv_answer cv2_wishes(uint64_t n, const uint8_t *list, size_t list_len, uint32_t *cells, size_t cells_len);
CV_NODISCARD cv_answer cv2_check(uint64_t n, const uint32_t *cells, size_t cells_len, const uint8_t *plan, size_t plan_len);
CV_NODISCARD cv_answer cv2_length(uint64_t n, const uint8_t *plan, size_t plan_len, uint16_t d);
CV_NODISCARD cv_answer cv2_join(uint64_t n, const uint8_t *plan, size_t plan_len, uint8_t *joined, size_t joined_len);
CV_NODISCARD cv_answer cv2_write(uint16_t hold, uint64_t n, const uint8_t outputs[128], uint8_t *plan, size_t plan_len);
CV_NODISCARD cv_answer cv2_open(uint64_t n, const uint8_t *plan, size_t plan_len);
CV_NODISCARD cv2_step cv2_step_at(uint64_t n, const uint8_t *plan, size_t plan_len, uint64_t at);

/*
 * Moves a plan (§18): the same holds and settings as records of the other edition, in a second buffer.
 * Either way N is at most CV_MOST_PORTS and the records at most CV_MOST_RECORDS. A moved plan grants what
 * it granted, and moved back it is the same bytes.
 * Codes:  1, 9 and 11 by the records that are read, 10 (place CV_MOST_RECORDS), 5 by those written, in
 *         the order 1, 9, 10, 11, 5.
 * Writes: the moved plan's records, at the start of moved; no later byte. The plan is only read.
 * Done:   records and total of the moved plan.
 */
CV_NODISCARD cv_answer cv_to_second(uint64_t n, const uint8_t *plan, size_t plan_len, uint8_t *moved, size_t moved_len);
CV_NODISCARD cv_answer cv_to_first(uint64_t n, const uint8_t *plan, size_t plan_len, uint8_t *moved, size_t moved_len);

/* ---- chordvenus-rescue: a damaged plan rescued ---- */

/*
 * A plan for the demand out of a damaged one (§19): its well-formed records as they stand, and behind
 * them the exact plan of what those leave uncovered. cv_check takes the result. The list tells of each
 * record that was dropped, in order: its number in two bytes, low byte first; a reason, CV_BAD_HOLD
 * and the like, the first that applies; a zero byte. A torn tail is the last, with the number of whole
 * records for its own. Where the buffer has no room for every plan that could come out, what is to be
 * added is planned twice, once to count its records.
 * Codes:  1, 2, 3; 10 for the damaged plan, whose torn tail counts as a record, and for the rescued
 *         one; 5 for the plan; 16 for the list.
 * Writes: the records of the rescued plan, and an entry for each record dropped.
 * Done:   records, total and empty of the rescued plan, longest of the demand; added, the records of
 *         the appended plan; dropped, the entries written.
 */
CV_NODISCARD cv_answer cv_rescue(uint64_t n, const uint32_t *cells, size_t cells_len, const uint8_t *damaged, size_t damaged_len, uint8_t *plan, size_t plan_len, uint8_t *dropped, size_t dropped_len);

/* ---- chordvenus-console: the record in force, and what a stopped batch leaves ---- */

/*
 * The record in force at a slot (§23.1 to §23.3), slots counted from 0 by holds alone: tonight's plan
 * from slot 0 on and, from the slot on where that is over, the standby plan, which begins there and
 * repeats without end. Both plans are judged whole, whatever the slot is; a call costs one pass over
 * each and one over the holds up to the record that it finds. cv_part_bytes gives the record itself.
 * Codes:  1; 9, 10, 11 for tonight's plan; 9, 10, 11 for the standby plan; 14.
 * Writes: nothing.
 * Done:   plan, start, size.
 */
CV_NODISCARD cv_part cv_in_force(uint64_t n, const uint8_t *tonight, size_t tonight_len, const uint8_t *standby, size_t standby_len, uint64_t slot);

/* The part itself, in the plans that cv_in_force was called with; NULL where it was refused. */
static inline const uint8_t *cv_part_bytes(cv_part part, const uint8_t *tonight, const uint8_t *standby)
{
    if (part.plan == 0)
        return NULL;
    return (part.plan == CV_TONIGHT ? tonight : standby) + part.start;
}

/*
 * What a batch that was stopped leaves to ask (§23.4 to §23.7): for each pair the slots asked that
 * the plan's first `first` records did not grant, and the new wish added. Slots granted beyond what
 * was asked are lost. The records behind them are judged too. The new wishes are cells, not a wish
 * list, so that a cell of 1 stays 1.
 * Codes:  1; 2 where any of the three buffers of cells does not have N * N; 9, 10, 11; 15; then 3 for
 *         the demand, for the new wishes and for the new demand.
 * Writes: all N * N cells. The demand, the plan and the wishes are only read.
 * Done:   every count is 0.
 */
CV_NODISCARD cv_answer cv_carry_over(uint64_t n, const uint32_t *asked, size_t asked_len, const uint8_t *plan, size_t plan_len, uint64_t first, const uint32_t *wished, size_t wished_len, uint32_t *cells, size_t cells_len);

/* ---- chordvenus-shop: tasks, for a switch whose ports move on their own ---- */

/*
 * The open-shop plan (§21): every pair with slots is a task that takes d, for switching, and its
 * slots. Tasks start at time 0 and whenever others have ended: the idle outputs, from the lowest up,
 * each start one with the lowest idle input that has one left for them. A task
 * record is CV_TASK_SIZE bytes: input, output, a zero byte and another, the start in four bytes and the
 * end in four, low byte first; they stand in order of start, and of output where starts are equal. A
 * port is in one task at a time, and each task is over within the task times of its input and of its
 * output, its own counted once. One record for each pair with slots: CV_SHOP_ROOM(n) suffices.
 * Codes:  1, 2, 3, 5.
 * Writes: the task records, at the start of tasks; no later byte. The demand is only read.
 * Done:   records is the number of tasks, total the latest end, or 0.
 */
CV_NODISCARD cv_answer cv_shop(uint64_t n, const uint32_t *cells, size_t cells_len, uint16_t d, uint8_t *tasks, size_t tasks_len);

/*
 * Reads tasks from anywhere, any number of them (§21.7). A task holds its ports from its start on and
 * is over at its end. Gaps are fine, and so is a pair that runs again later.
 * Codes:  1, 9, then 11 for the first record with a port that is not below N, with a third or fourth
 *         byte other than 0, with no time between start and end, that does not follow the record
 *         before it by start and then output, or that overlaps one before it on its input or its output.
 * Writes: nothing.
 * Done:   records is the number of tasks, total the latest end, or 0.
 */
CV_NODISCARD cv_answer cv_tasks(uint64_t n, const uint8_t *tasks, size_t tasks_len);

#ifdef __cplusplus
}
#endif

#endif
