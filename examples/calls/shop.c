/* Tasks for a switch whose ports move on their own, and what the reader says of them. */
#include <chordvenus.h>

#include <inttypes.h>
#include <stdio.h>

enum { N = 2 };

static uint32_t word(const uint8_t *bytes)
{
    return bytes[0] | (uint32_t)bytes[1] << 8 | (uint32_t)bytes[2] << 16 | (uint32_t)bytes[3] << 24;
}

int main(void)
{
    const uint32_t cells[N * N] = {1, 2, 3, 1};
    uint8_t tasks[CV_SHOP_ROOM(N)];
    cv_answer answer = cv_shop(N, cells, N * N, 1, tasks, sizeof tasks);
    if (answer.code != CV_DONE)
        return 1;
    for (size_t k = 0; k < answer.records; k++) {
        const uint8_t *task = tasks + k * CV_TASK_SIZE;
        printf("input %d to output %d from %" PRIu32 " to %" PRIu32 "\n", task[0], task[1], word(task + 4), word(task + 8));
    }
    printf("%" PRIu64 " tasks, the last over at %" PRIu64 "\n", answer.records, answer.total);

    /* The third task starts one slot too early: its input and its output are still at work. */
    tasks[2 * CV_TASK_SIZE + 4] = 1;
    answer = cv_tasks(N, tasks, sizeof tasks);
    printf("code %" PRIu64 " at task %" PRIu64 "\n", answer.code, answer.place);
    return 0;
}
