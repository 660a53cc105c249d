/* A record written, a plan opened, and read step by step up to its end. */
#include <chordvenus.h>

#include <inttypes.h>
#include <stdio.h>
#include <string.h>

enum { N = 3 };

int main(void)
{
    uint8_t outputs[64], plan[CV_RECORD_SIZE];
    memset(outputs, CV_IDLE, sizeof outputs);
    outputs[0] = 2;
    outputs[2] = 0;
    cv_answer answer = cv_write(40, N, outputs, plan, sizeof plan);
    if (answer.code != CV_DONE)
        return 1;

    answer = cv_open(N, plan, sizeof plan);
    if (answer.code != CV_DONE)
        return 1;
    printf("records %" PRIu64 "\n", answer.records);
    cv_step step;
    for (uint64_t at = 0; (step = cv_step_at(N, plan, sizeof plan, at)).kind == CV_STEP_RECORD; at++)
        for (int input = 0; input < N; input++)
            if (step.outputs[input] == CV_IDLE)
                printf("input %d is idle\n", input);
            else
                printf("input %d has output %d for %" PRIu64 " slots\n", input, step.outputs[input], step.hold);
    printf(step.kind == CV_STEP_END ? "the end\n" : "damaged\n");

    outputs[1] = 2;
    answer = cv_write(40, N, outputs, plan, sizeof plan);
    printf("an output twice: code %" PRIu64 ": %s\n", answer.code, cv_words(answer.code));
    return 0;
}
