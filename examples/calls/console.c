/* Which record is in force at a slot of the night, and what a batch that is stopped leaves to ask. */
#include <chordvenus.h>

#include <inttypes.h>
#include <stdio.h>

enum { N = 2 };

int main(void)
{
    /* Tonight: 3 slots straight, 2 crossed. On standby: 4 slots crossed, over and over. */
    const uint32_t asked[N * N] = {3, 2, 2, 3}, crossed[N * N] = {0, 4, 4, 0};
    uint8_t tonight[CV_EXACT_ROOM(N)], standby[CV_EXACT_ROOM(N)];
    cv_answer one = cv_exact(N, asked, N * N, tonight, sizeof tonight), other = cv_exact(N, crossed, N * N, standby, sizeof standby);
    if (one.code != CV_DONE || other.code != CV_DONE)
        return 1;
    size_t tonight_len = (size_t)one.records * CV_RECORD_SIZE, standby_len = (size_t)other.records * CV_RECORD_SIZE;

    const uint64_t slots[] = {0, 4, 5, UINT64_MAX};
    for (int k = 0; k < 4; k++) {
        cv_part part = cv_in_force(N, tonight, tonight_len, standby, standby_len, slots[k]);
        const uint8_t *record = cv_part_bytes(part, tonight, standby);
        if (record == NULL)
            return 1;
        printf("slot %" PRIu64 ": %s, hold %d, input 0 has output %d\n", slots[k], part.plan == CV_TONIGHT ? "tonight" : "standby", record[0], record[4]);
    }

    /* The night is stopped after its first record, and input 0 wishes 5 more slots of output 0. */
    const uint32_t wished[N * N] = {5, 0, 0, 0};
    uint32_t cells[N * N];
    cv_answer answer = cv_carry_over(N, asked, N * N, tonight, tonight_len, 1, wished, N * N, cells, N * N);
    if (answer.code != CV_DONE)
        return 1;
    printf("left to ask\n%" PRIu32 " %" PRIu32 "\n%" PRIu32 " %" PRIu32 "\n", cells[0], cells[1], cells[2], cells[3]);
    return 0;
}
