/*
 * Makes each call on a thread that has just the bytes of stack left that the header names, at the most
 * ports, and tells how many of them it took. Below the stack lie pages that nobody may touch, so a call
 * that takes more ends the program. The inputs are those on which the search for a setting goes deepest, as far as
 * is known; bindings/c/stack.py holds the figures against every path through the archive.
 */
#define _DEFAULT_SOURCE
#include <chordvenus.h>

#include <alloca.h>
#include <pthread.h>
#include <stdio.h>
#include <stdlib.h>
#include <string.h>
#include <sys/mman.h>

enum { N = CV_MOST_PORTS, WIDE = CV2_MOST_PORTS, RECORDS = CV_MOST_RECORDS, ROOM = RECORDS * CV_RECORD_SIZE };
enum { TASKS = CV_SHOP_ROOM(N) };
enum { FENCE = 64 * 1024, LARGEST = 512 * 1024, PAINT = 0x5a };

static uint32_t cells[N * N], renewed[N * N], wide[WIDE * WIDE];
static uint8_t plan[ROOM], made[ROOM], list[N * N * CV_WISH_SIZE], tasked[CV_SHOP_ROOM(N)];
enum { WIDE_ROOM = CV2_MOST_RECORDS * CV2_RECORD_SIZE };
static uint32_t wide_cells[4 * N * N];
static uint8_t wide_plan[WIDE_ROOM], wide_made[WIDE_ROOM], moved[RECORDS * CV2_RECORD_SIZE];
static cv2_step wide_step;
static size_t room;
static cv_answer answer;
static cv_step step;
static cv_part part;
static uint8_t *stack;
static size_t way_in; /* what the function around the call takes */
static size_t left;   /* bytes of stack that the thread is to have left */

/* A call that takes nothing but its return address. */
static cv_answer nothing(void) { return (cv_answer){.code = CV_DONE}; }
static cv_answer (*volatile no_call)(void) = nothing;

static void way(void) { answer = no_call(); }
static void version(void) { answer.code = cv_version() != CV_VERSION; }
static void wish(void) { answer = cv_wish(0x477ffe01); }
static void wishes(void) { answer = cv_wishes(N, list, sizeof list, cells, N * N); }
static void exact(void) { answer = cv_exact(N, cells, N * N, made, room); }
static void doubled(void) { answer = cv_doubled(N, cells, N * N, made, room); }
static void every(void) { answer = cv_doubled_every_rotation(N, cells, N * N, made, room); }
static void quick(void) { answer = cv_quick(N, cells, N * N, made, room); }
static void wide_exact(void) { answer = cv2_exact(WIDE, wide, WIDE * WIDE, made, room); }
static void wide_doubled(void) { answer = cv2_doubled(WIDE, wide, WIDE * WIDE, made, room); }
static void wide_every(void) { answer = cv2_doubled_every_rotation(WIDE, wide, WIDE * WIDE, made, room); }
static void wide_quick(void) { answer = cv2_quick(WIDE, wide, WIDE * WIDE, made, room); }
static void exact_room(void) { answer = cv_exact_room(N, 65535); }
static void doubled_room(void) { answer = cv_doubled_room(N, 65535); }
static void quick_room(void) { answer = cv_quick_room(N, CV_MOST_QUICK); }
static void wide_exact_room(void) { answer = cv2_exact_room(2 * N, 65535); }
static void wide_doubled_room(void) { answer = cv2_doubled_room(2 * N, 65535); }
static void wide_quick_room(void) { answer = cv2_quick_room(2 * N, CV_MOST_QUICK); }
static void grating(void) { answer = cv_grating_doubled(N, cells, N * N, made, room); }
static void quiet(void) { answer = cv_grating_quiet(N, cells, N * N, 1, made, room); }
static void least(void) { answer = cv_grating_least(N, cells, N * N, 1); }
static void report(void) { answer = cv_grating_report(N, plan, ROOM, made, room); }
static void check(void) { answer = cv_check(N, cells, N * N, plan, ROOM); }
static void length(void) { answer = cv_length(N, plan, ROOM, 65535); }
static void join(void) { answer = cv_join(N, plan, ROOM, made, room); }
static void write_one(void) { answer = cv_write(65535, N, plan + 4, made, room); }
static void open_plan(void) { answer = cv_open(N, plan, ROOM); }
static void step_at(void) { step = cv_step_at(N, plan, ROOM, RECORDS - 1); }
static void wide_wishes(void) { answer = cv2_wishes(2 * N, list, sizeof list, wide_cells, 4 * N * N); }
static void wide_check(void) { answer = cv2_check(2 * N, wide_cells, 4 * N * N, wide_plan, WIDE_ROOM); }
static void wide_length(void) { answer = cv2_length(2 * N, wide_plan, WIDE_ROOM, 65535); }
static void wide_join(void) { answer = cv2_join(2 * N, wide_plan, WIDE_ROOM, wide_made, WIDE_ROOM); }
static void wide_write(void) { answer = cv2_write(65535, 2 * N, wide_plan + 4, wide_made, WIDE_ROOM); }
static void wide_open(void) { answer = cv2_open(2 * N, wide_plan, WIDE_ROOM); }
static void wide_step_at(void) { wide_step = cv2_step_at(2 * N, wide_plan, WIDE_ROOM, CV2_MOST_RECORDS - 1); }
static void to_second(void) { answer = cv_to_second(N, plan, ROOM, wide_made, WIDE_ROOM); }
static void to_first(void) { answer = cv_to_first(N, moved, sizeof moved, made, ROOM); }
static void in_force(void) { part = cv_in_force(N, plan, ROOM, plan, ROOM, UINT64_MAX); }
static void shop(void) { answer = cv_shop(N, cells, N * N, 65535, made, room); }
static void tasks(void) { answer = cv_tasks(N, tasked, TASKS); }
static void carry_over(void) { answer = cv_carry_over(N, cells, N * N, plan, ROOM, RECORDS, cells, N * N, renewed, N * N); }
static void rescue(void) { answer = cv_rescue(N, cells, N * N, plan, 1, made, room, list, CV_ENTRY_SIZE); }

/* Takes the thread's stack but for the bytes that are to be left, and calls the function there. */
static void *at_the_end(void *call)
{
    volatile uint8_t *here = alloca(16);
    volatile uint8_t *gone = alloca((size_t)(here - stack) - left);
    *here = *gone = 0;
    (*(void (**)(void))call)();
    return NULL;
}

/* Runs a function on a thread with so many bytes left; answers how many it changed, counted from the top. */
static size_t taken(void (*call)(void), size_t bytes)
{
    pthread_t thread;
    pthread_attr_t attributes;
    memset(stack, PAINT, LARGEST);
    left = bytes;
    if (pthread_attr_init(&attributes) != 0 || pthread_attr_setstack(&attributes, stack, LARGEST) != 0
        || pthread_create(&thread, &attributes, at_the_end, &call) != 0 || pthread_join(thread, NULL) != 0)
        exit(2);
    size_t free = 0;
    while (stack[free] == PAINT)
        free++;
    return bytes > free ? bytes - free : 0;
}

/*
 * A demand of n ports whose lines all sum to n times `by`. Once its first setting is taken off, input 1
 * has lost its output and can have another only if all the inputs after it move on by one.
 */
static void chain(uint32_t *demand, uint32_t n, uint32_t by)
{
    memset(demand, 0, n * n * sizeof *demand);
    demand[0] = (n - 1) * by;
    demand[1] = demand[n] = demand[n + 1] = by;
    demand[n + 2] = (n - 2) * by;
    for (uint32_t i = 2; i < n; i++) {
        demand[i * n + i] = 2 * by;
        demand[i * n + (i + 1 < n ? i + 1 : 1)] = (n - 2) * by;
    }
}

/* Cells of 0 to 15, or of 0 to 7 for twice the ports, the same in every run. */
static void mixed(uint32_t *demand, uint32_t n)
{
    uint32_t state = 1;
    for (uint32_t k = 0; k < n * n; k++) {
        state = state * 1664525 + 1013904223;
        demand[k] = (state >> 28) * N / n;
    }
}

/* Rotations at the largest hold, over and over, as records of an edition. */
static void rotations(uint8_t *bytes, int ports, int size, uint8_t edition, int records)
{
    for (int k = 0; k < records; k++) {
        uint8_t *record = bytes + (size_t)k * size;
        memset(record, CV_IDLE, size);
        memcpy(record, (uint8_t[]){0xff, 0xff, (uint8_t)ports, edition}, 4);
        for (int i = 0; i < ports; i++)
            record[4 + i] = (uint8_t)((i + k) % ports);
    }
}

/* A wish for every pair, and the most records of each edition. */
static void fill_lists(void)
{
    for (int k = 0; k < N * N; k++)
        memcpy(list + k * CV_WISH_SIZE, (uint8_t[]){(uint8_t)(k / N), (uint8_t)(k % N), 0, 0, 0, 0, 0x80, 0x3f}, CV_WISH_SIZE);
    for (int k = 0; k < N * N; k++)
        memcpy(tasked + k * CV_TASK_SIZE, (uint8_t[]){(uint8_t)(k % N), (uint8_t)(k / N), 0, 0, (uint8_t)k, (uint8_t)(k >> 8), 0, 0, (uint8_t)(k + 1), (uint8_t)((k + 1) >> 8), 0, 0}, CV_TASK_SIZE);
    rotations(plan, N, CV_RECORD_SIZE, 0, RECORDS);
    rotations(wide_plan, 2 * N, CV2_RECORD_SIZE, 2, CV2_MOST_RECORDS);
    rotations(moved, N, CV2_RECORD_SIZE, 2, RECORDS);
}

/* The most that a call takes, with room to spare and with just the room it needs. */
static size_t most_taken(void (*call)(void), size_t bytes, size_t record)
{
    room = ROOM;
    size_t first = taken(call, bytes + way_in);
    if (answer.code == CV_DONE && answer.records * record < ROOM)
        room = answer.records * record;
    size_t second = taken(call, bytes + way_in);
    return first > second ? first : second;
}

int main(void)
{
    const struct { const char *name; void (*call)(void); size_t bytes; } calls[] = {
        {"cv_version", version, CV_STACK_VERSION}, {"cv_wish", wish, CV_STACK_WISH},
        {"cv_exact", exact, CV_STACK_EXACT},       {"cv_doubled", doubled, CV_STACK_DOUBLED},
        {"cv_doubled_every_rotation", every, CV_STACK_DOUBLED_EVERY_ROTATION},
        {"cv2_exact", wide_exact, CV2_STACK_EXACT}, {"cv2_doubled", wide_doubled, CV2_STACK_DOUBLED},
        {"cv2_doubled_every_rotation", wide_every, CV2_STACK_DOUBLED_EVERY_ROTATION},
        {"cv2_quick", wide_quick, CV2_STACK_QUICK},
        {"cv_exact_room", exact_room, CV_STACK_EXACT_ROOM},
        {"cv_doubled_room", doubled_room, CV_STACK_DOUBLED_ROOM},
        {"cv_quick_room", quick_room, CV_STACK_QUICK_ROOM},
        {"cv2_exact_room", wide_exact_room, CV2_STACK_EXACT_ROOM},
        {"cv2_doubled_room", wide_doubled_room, CV2_STACK_DOUBLED_ROOM},
        {"cv2_quick_room", wide_quick_room, CV2_STACK_QUICK_ROOM},
        {"cv_grating_doubled", grating, CV_STACK_GRATING_DOUBLED},
        {"cv_quick", quick, CV_STACK_QUICK},       {"cv_check", check, CV_STACK_CHECK},
        {"cv_grating_quiet", quiet, CV_STACK_GRATING_QUIET},
        {"cv_grating_least", least, CV_STACK_GRATING_LEAST},
        {"cv_grating_report", report, CV_STACK_GRATING_REPORT},
        {"cv_length", length, CV_STACK_LENGTH},    {"cv_join", join, CV_STACK_JOIN},
        {"cv_write", write_one, CV_STACK_WRITE},   {"cv_open", open_plan, CV_STACK_OPEN},
        {"cv_step_at", step_at, CV_STACK_STEP_AT}, {"cv_in_force", in_force, CV_STACK_IN_FORCE},
        {"cv_carry_over", carry_over, CV_STACK_CARRY_OVER},
        {"cv_shop", shop, CV_STACK_SHOP},         {"cv_tasks", tasks, CV_STACK_TASKS},
        {"cv2_wishes", wide_wishes, CV2_STACK_WISHES},     {"cv2_check", wide_check, CV2_STACK_CHECK},
        {"cv2_length", wide_length, CV2_STACK_LENGTH},     {"cv2_join", wide_join, CV2_STACK_JOIN},
        {"cv2_write", wide_write, CV2_STACK_WRITE},        {"cv2_open", wide_open, CV2_STACK_OPEN},
        {"cv2_step_at", wide_step_at, CV2_STACK_STEP_AT},  {"cv_to_second", to_second, CV_STACK_TO_SECOND},
        {"cv_to_first", to_first, CV_STACK_TO_FIRST},
        {"cv_rescue", rescue, CV_STACK_RESCUE},
        {"cv_wishes", wishes, CV_STACK_WISHES},
    };
    uint8_t *fence = mmap(NULL, FENCE + LARGEST, PROT_READ | PROT_WRITE, MAP_PRIVATE | MAP_ANONYMOUS, -1, 0);
    if (fence == MAP_FAILED || mprotect(fence, FENCE, PROT_NONE) != 0)
        return 2;
    stack = fence + FENCE;
    fill_lists();
    way_in = taken(way, LARGEST / 2) - sizeof(void *);
    for (size_t k = 0; k < sizeof calls / sizeof *calls; k++) {
        size_t most = 0;
        for (uint32_t by = 0; by < 3; by++) {
            if (by == 0) {
                mixed(cells, N);
                mixed(wide, WIDE);
            } else {
                chain(cells, N, by);
                chain(wide, WIDE, by);
            }
            size_t record = strncmp(calls[k].name, "cv2_", 4) == 0 ? CV2_RECORD_SIZE : CV_RECORD_SIZE;
            size_t bytes = most_taken(calls[k].call, calls[k].bytes, record);
            most = bytes > most ? bytes : most;
        }
        printf("%s: took %zu of %zu bytes\n", calls[k].name, most > way_in ? most - way_in : 0, calls[k].bytes);
        fflush(stdout);
    }
    return 0;
}
