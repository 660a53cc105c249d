/* A switch of 100 ports: wishes, a record, a plan read, checked, measured and joined; and a small plan moved between the editions. */
#include <chordvenus.h>

#include <inttypes.h>
#include <stdio.h>
#include <string.h>

enum { N = 100 };

static uint32_t cells[N * N];
static uint8_t plan[2 * CV2_RECORD_SIZE], joined[2 * CV2_RECORD_SIZE];

/* Input i has output N - 1 - i, for 40 slots, twice. */
static int write_plan(void)
{
    uint8_t outputs[128];
    memset(outputs, CV_IDLE, sizeof outputs);
    for (int input = 0; input < N; input++)
        outputs[input] = (uint8_t)(N - 1 - input);
    for (int k = 0; k < 2; k++)
        if (cv2_write(40, N, outputs, plan + k * CV2_RECORD_SIZE, CV2_RECORD_SIZE).code != CV_DONE)
            return 1;
    return 0;
}

static int read_plan(void)
{
    cv_answer answer = cv2_open(N, plan, sizeof plan);
    if (answer.code != CV_DONE)
        return 1;
    printf("records %" PRIu64 "\n", answer.records);
    for (uint64_t at = 0; at < answer.records; at++) {
        cv2_step step = cv2_step_at(N, plan, sizeof plan, at);
        if (step.kind != CV_STEP_RECORD)
            return 1;
        printf("input 0 has output %d for %" PRIu64 " slots\n", step.outputs[0], step.hold);
    }
    return 0;
}

static int move_plan(void)
{
    uint8_t outputs[64], first[CV_RECORD_SIZE], second[CV2_RECORD_SIZE], back[CV_RECORD_SIZE];
    memset(outputs, CV_IDLE, sizeof outputs);
    outputs[0] = 1;
    if (cv_write(7, 2, outputs, first, sizeof first).code != CV_DONE || cv_to_second(2, first, sizeof first, second, sizeof second).code != CV_DONE
        || cv_to_first(2, second, sizeof second, back, sizeof back).code != CV_DONE)
        return 1;
    printf("moved: the byte behind N is %d, and there and back %s\n", second[3], memcmp(first, back, sizeof back) ? "differs" : "is the same");
    cv_answer answer = cv_to_first(N, plan, sizeof plan, back, sizeof back);
    printf("moved to 64 ports: code %" PRIu64 ": %s\n", answer.code, cv_words(answer.code));
    return 0;
}

int main(void)
{
    /* input 0, output 99, 65.0 as a binary32 */
    const uint8_t list[] = {0, N - 1, 0, 0, 0x00, 0x00, 0x82, 0x42};
    if (cv2_wishes(N, list, sizeof list, cells, N * N).code != CV_DONE || write_plan() || read_plan())
        return 1;

    cv_answer answer = cv2_check(N, cells, N * N, plan, sizeof plan);
    if (answer.code != CV_DONE)
        return 1;
    printf("covers, longest %" PRIu64 ", empty %" PRIu64 "\n", answer.longest, answer.empty);
    answer = cv2_length(N, plan, sizeof plan, 5);
    if (answer.code != CV_DONE)
        return 1;
    printf("length %" PRIu64 "\n", answer.length);
    answer = cv2_join(N, plan, sizeof plan, joined, sizeof joined);
    if (answer.code != CV_DONE)
        return 1;
    printf("joined: records %" PRIu64 ", total %" PRIu64 "\n", answer.records, answer.total);
    return move_plan();
}
