/* One demand by each planner: few slots (exact), few settings (doubled, by both rules), little thought (quick). */
#include <chordvenus.h>

#include <inttypes.h>
#include <stdio.h>

enum { N = 3, LONGEST = 10 };

typedef cv_answer planner(uint64_t n, const uint32_t *cells, size_t cells_len, uint8_t *plan, size_t plan_len);

/* Prints the plan of a demand whose longest line is 10. */
static int show(const char *name, planner *plan_of, uint8_t *plan, size_t size)
{
    const uint32_t cells[N * N] = {7, 1, 2, 0, 6, 3, 2, 2, 5};
    cv_answer answer = plan_of(N, cells, N * N, plan, size);
    if (answer.code != CV_DONE)
        return 1;
    printf("%s: records %" PRIu64 " total %" PRIu64 " empty %" PRIu64 "\n", name, answer.records, answer.total, answer.empty);
    for (uint64_t at = 0; at < answer.records; at++) {
        cv_step step = cv_step_at(N, plan, size, at);
        printf("%" PRIu64, step.hold);
        for (int input = 0; input < N; input++)
            if (step.outputs[input] == CV_IDLE)
                printf(" -");
            else
                printf(" %d", step.outputs[input]);
        printf("\n");
    }
    return 0;
}

int main(void)
{
    static uint8_t exact[CV_EXACT_ROOM(N)], doubled[CV_DOUBLED_ROOM(N)], quick[CV_QUICK_ROOM(LONGEST)];
    return show("exact", cv_exact, exact, sizeof exact)
        || show("doubled", cv_doubled, doubled, sizeof doubled)
        || show("every rotation", cv_doubled_every_rotation, doubled, sizeof doubled)
        || show("quick", cv_quick, quick, sizeof quick);
}
