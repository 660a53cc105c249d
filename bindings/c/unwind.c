/*
 * Stops inside calls, by lending them memory that nobody may touch, and has the unwinder walk back from there, as
 * a debugger does: the walk must meet the call itself and, above it, the function that made it. Without unwind
 * tables in the archive it meets neither.
 */
#define _DEFAULT_SOURCE
#include <chordvenus.h>

#include <setjmp.h>
#include <signal.h>
#include <stdio.h>
#include <sys/mman.h>
#include <unwind.h>

enum { N = 2 };

static uint8_t *none; /* memory that nobody may touch */
static uint32_t cells[N * N] = {2, 1, 1, 2};
static uint8_t plan[2 * CV_RECORD_SIZE];
static cv_answer answer;
static cv_step step;
static cv_part part;
static sigjmp_buf back;
static uintptr_t call, caller;
static int met_call, met_caller;

static void wishes(void) { answer = cv_wishes(N, none, CV_WISH_SIZE, cells, N * N); }
static void exact(void) { answer = cv_exact(N, cells, N * N, none, 8 * CV_RECORD_SIZE); }
static void doubled(void) { answer = cv_doubled(N, cells, N * N, none, 8 * CV_RECORD_SIZE); }
static void every(void) { answer = cv_doubled_every_rotation(N, cells, N * N, none, 8 * CV_RECORD_SIZE); }
static void quick(void) { answer = cv_quick(N, cells, N * N, none, 8 * CV_RECORD_SIZE); }
static void grating(void) { answer = cv_grating_doubled(N, cells, N * N, none, 8 * CV_RECORD_SIZE); }
static void quiet(void) { answer = cv_grating_quiet(N, cells, N * N, 1, none, 8 * CV_RECORD_SIZE); }
static void least(void) { answer = cv_grating_least(N, (const uint32_t *)(void *)none, N * N, 1); }
static void report(void) { answer = cv_grating_report(N, plan, sizeof plan, none, 2); }
static void check(void) { answer = cv_check(N, cells, N * N, none, CV_RECORD_SIZE); }
static void length(void) { answer = cv_length(N, none, CV_RECORD_SIZE, 1); }
static void join(void) { answer = cv_join(N, plan, sizeof plan, none, sizeof plan); }
static void write_one(void) { answer = cv_write(1, N, plan + 4, none, CV_RECORD_SIZE); }
static void step_at(void) { step = cv_step_at(N, none, CV_RECORD_SIZE, 0); }
static void in_force(void) { part = cv_in_force(N, plan, sizeof plan, none, CV_RECORD_SIZE, 0); }
static void rescue(void) { answer = cv_rescue(N, cells, N * N, none, CV_RECORD_SIZE, plan, sizeof plan, plan, 0); }
static void shop(void) { answer = cv_shop(N, cells, N * N, 1, none, 8 * CV_RECORD_SIZE); }
static void tasks(void) { answer = cv_tasks(N, none, CV_TASK_SIZE); }
static void wide_wishes(void) { answer = cv2_wishes(N, none, CV_WISH_SIZE, cells, N * N); }
static void wide_check(void) { answer = cv2_check(N, cells, N * N, none, CV2_RECORD_SIZE); }
static void wide_length(void) { answer = cv2_length(N, none, CV2_RECORD_SIZE, 1); }
static void wide_join(void) { answer = cv2_join(N, none, CV2_RECORD_SIZE, plan, sizeof plan); }
static void to_second(void) { answer = cv_to_second(N, plan, sizeof plan, none, 2 * CV2_RECORD_SIZE); }
static void to_first(void) { answer = cv_to_first(N, none, CV2_RECORD_SIZE, plan, sizeof plan); }
static void carry_over(void) { answer = cv_carry_over(N, cells, N * N, plan, sizeof plan, 1, cells, N * N, (uint32_t *)(void *)none, N * N); }

/* One frame of the walk: in which function it is. */
static _Unwind_Reason_Code look(struct _Unwind_Context *frame, void *unused)
{
    (void)unused;
    uintptr_t in = (uintptr_t)_Unwind_FindEnclosingFunction((void *)_Unwind_GetIP(frame));
    met_call |= in == call;
    met_caller |= met_call && in == caller;
    return _URC_NO_REASON;
}

static void stopped(int signal)
{
    (void)signal;
    _Unwind_Backtrace(look, NULL);
    siglongjmp(back, 1);
}

int main(void)
{
    const struct { const char *name; uintptr_t call; void (*caller)(void); } calls[] = {
        {"cv_wishes", (uintptr_t)cv_wishes, wishes}, {"cv_exact", (uintptr_t)cv_exact, exact},
        {"cv_doubled", (uintptr_t)cv_doubled, doubled}, {"cv_doubled_every_rotation", (uintptr_t)cv_doubled_every_rotation, every},
        {"cv_quick", (uintptr_t)cv_quick, quick}, {"cv_grating_doubled", (uintptr_t)cv_grating_doubled, grating},
        {"cv_grating_quiet", (uintptr_t)cv_grating_quiet, quiet}, {"cv_grating_least", (uintptr_t)cv_grating_least, least},
        {"cv_grating_report", (uintptr_t)cv_grating_report, report}, {"cv_check", (uintptr_t)cv_check, check},
        {"cv_length", (uintptr_t)cv_length, length}, {"cv_join", (uintptr_t)cv_join, join},
        {"cv_write", (uintptr_t)cv_write, write_one}, {"cv_step_at", (uintptr_t)cv_step_at, step_at},
        {"cv_shop", (uintptr_t)cv_shop, shop}, {"cv_tasks", (uintptr_t)cv_tasks, tasks},
        {"cv2_wishes", (uintptr_t)cv2_wishes, wide_wishes}, {"cv2_check", (uintptr_t)cv2_check, wide_check},
        {"cv2_length", (uintptr_t)cv2_length, wide_length}, {"cv2_join", (uintptr_t)cv2_join, wide_join},
        {"cv_to_second", (uintptr_t)cv_to_second, to_second}, {"cv_to_first", (uintptr_t)cv_to_first, to_first},
        {"cv_in_force", (uintptr_t)cv_in_force, in_force}, {"cv_carry_over", (uintptr_t)cv_carry_over, carry_over},
        {"cv_rescue", (uintptr_t)cv_rescue, rescue},
    };
    const struct sigaction on_fault = {.sa_handler = stopped};
    none = mmap(NULL, 8 * CV_RECORD_SIZE, PROT_NONE, MAP_PRIVATE | MAP_ANONYMOUS, -1, 0);
    if (none == MAP_FAILED || sigaction(SIGSEGV, &on_fault, NULL) != 0 || cv_exact(N, cells, N * N, plan, sizeof plan).code != CV_DONE)
        return 2;
    int lost = 0;
    for (size_t k = 0; k < sizeof calls / sizeof *calls; k++) {
        met_call = met_caller = 0;
        call = calls[k].call;
        caller = (uintptr_t)calls[k].caller;
        if (sigsetjmp(back, 1) == 0)
            calls[k].caller();
        if (!met_caller) {
            printf("%s: stopped inside, nobody can tell who called\n", calls[k].name);
            lost++;
        }
    }
    printf("unwinding: %zu calls, %d lost\n", sizeof calls / sizeof *calls, lost);
    return lost != 0;
}
