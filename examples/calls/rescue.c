/* A plan file with bad records, made whole again for a demand that is still at hand. */
#include <chordvenus.h>

#include <inttypes.h>
#include <stdio.h>

enum { N = 2, ROOM = 4, ENTRIES = 3, TAIL = 3 };

int main(void)
{
    /* A good plan of two records; then the second loses its hold, and the file ends in the middle of a third. */
    const uint32_t cells[N * N] = {2, 1, 1, 2};
    uint8_t damaged[CV_EXACT_ROOM(N) + TAIL] = {0};
    cv_answer answer = cv_exact(N, cells, N * N, damaged, CV_EXACT_ROOM(N));
    if (answer.code != CV_DONE)
        return 1;
    size_t whole = (size_t)answer.records * CV_RECORD_SIZE;
    damaged[CV_RECORD_SIZE] = 0;
    damaged[whole] = 1;
    damaged[whole + 2] = N;

    uint8_t plan[ROOM * CV_RECORD_SIZE], dropped[ENTRIES * CV_ENTRY_SIZE];
    answer = cv_rescue(N, cells, N * N, damaged, whole + TAIL, plan, sizeof plan, dropped, sizeof dropped);
    if (answer.code != CV_DONE)
        return 1;
    printf("records %" PRIu64 " total %" PRIu64 " added %" PRIu64 "\n", answer.records, answer.total, answer.added);
    for (uint64_t k = 0; k < answer.dropped; k++) {
        const uint8_t *entry = dropped + k * CV_ENTRY_SIZE;
        printf("dropped %d, reason %d\n", entry[0] + 256 * entry[1], entry[2]);
    }

    answer = cv_check(N, cells, N * N, plan, (size_t)answer.records * CV_RECORD_SIZE);
    if (answer.code != CV_DONE)
        return 1;
    printf("checked: records %" PRIu64 " total %" PRIu64 " empty %" PRIu64 "\n", answer.records, answer.total, answer.empty);
    return 0;
}
