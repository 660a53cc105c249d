/* A plan from anywhere: held against a demand, measured at a switching time, and its equal settings joined. */
#include <chordvenus.h>

#include <inttypes.h>
#include <stdio.h>
#include <string.h>

enum { N = 2, SWITCHING_TIME = 5 };

/* One record of a plan for two ports. */
static int put(uint8_t *record, uint16_t hold, uint8_t first, uint8_t second)
{
    uint8_t outputs[64];
    memset(outputs, CV_IDLE, sizeof outputs);
    outputs[0] = first;
    outputs[1] = second;
    return cv_write(hold, N, outputs, record, CV_RECORD_SIZE).code == CV_DONE;
}

int main(void)
{
    /* Straight for 2 slots, crossed for 3, straight for 1 more. */
    uint8_t plan[3 * CV_RECORD_SIZE], joined[sizeof plan];
    if (!put(plan, 2, 0, 1) || !put(plan + CV_RECORD_SIZE, 3, 1, 0) || !put(plan + 2 * CV_RECORD_SIZE, 1, 0, 1))
        return 1;

    const uint32_t cells[N * N] = {3, 2, 3, 1};
    cv_answer answer = cv_check(N, cells, N * N, plan, sizeof plan);
    if (answer.code != CV_DONE)
        return 1;
    printf("it covers, with %" PRIu64 " empty slots\n", answer.empty);

    const uint32_t more[N * N] = {3, 2, 4, 1};
    answer = cv_check(N, more, N * N, plan, sizeof plan);
    printf("code %" PRIu64 " at cell %" PRIu64 ": %s\n", answer.code, answer.place, cv_words(answer.code));

    answer = cv_length(N, plan, sizeof plan, SWITCHING_TIME);
    if (answer.code != CV_DONE)
        return 1;
    printf("it takes %" PRIu64 " slots\n", answer.length);

    answer = cv_join(N, plan, sizeof plan, joined, sizeof joined);
    if (answer.code != CV_DONE)
        return 1;
    size_t used = (size_t)answer.records * CV_RECORD_SIZE;
    answer = cv_length(N, joined, used, SWITCHING_TIME);
    if (answer.code != CV_DONE)
        return 1;
    printf("joined, in %" PRIu64 " records, %" PRIu64 "\n", answer.records, answer.length);
    return 0;
}
