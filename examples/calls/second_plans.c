/* The second edition's planners on a switch of 65 ports: records of 132 bytes, with the byte 2 behind N. */
#include <chordvenus.h>

#include <inttypes.h>
#include <stdio.h>

enum { N = 65, ROOM = 2 * N * CV2_RECORD_SIZE };

typedef cv_answer planner(uint64_t n, const uint32_t *cells, size_t cells_len, uint8_t *plan, size_t plan_len);

/* Each input asks 3 slots of the output after its own, around, and input 64 one of output 7. */
static int show(const char *name, planner *plan_of)
{
    static uint32_t cells[N * N];
    static uint8_t plan[ROOM];
    for (int i = 0; i < N; i++)
        cells[i * N + (i + 1) % N] = 3;
    cells[64 * N + 7] = 1;
    cv_answer answer = plan_of(N, cells, N * N, plan, sizeof plan);
    if (answer.code != CV_DONE)
        return 1;
    printf("%s: records %" PRIu64 " total %" PRIu64 " empty %" PRIu64 "\n", name, answer.records, answer.total, answer.empty);
    for (uint64_t at = 0; at < answer.records; at++) {
        const uint8_t *record = plan + at * CV2_RECORD_SIZE;
        printf("hold %d N %d byte %d input 0 to %d, input 64 to %d\n", record[0] + 256 * record[1], record[2], record[3], record[4], record[4 + 64]);
    }
    return 0;
}

int main(void)
{
    return show("exact", cv2_exact)
        || show("doubled", cv2_doubled)
        || show("every rotation", cv2_doubled_every_rotation)
        || show("quick", cv2_quick);
}
