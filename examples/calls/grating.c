/* Plans for the grating fabric, and what each of their records does to the wavelengths. */
#include <chordvenus.h>

#include <inttypes.h>
#include <stdio.h>

enum { N = 5, LIMIT = 2 };

/* What each record of a plan of so many bytes does. */
static int show(const uint8_t *plan, size_t used)
{
    static uint8_t report[N * N];
    cv_answer answer = cv_grating_report(N, plan, used, report, sizeof report);
    if (answer.code != CV_DONE)
        return 1;
    for (uint64_t at = 0; at < answer.records; at++)
        printf("record %" PRIu64 ": at most %d inputs on a wavelength\n", at, report[at]);
    return 0;
}

int main(void)
{
    const uint32_t cells[N * N] = {9, 1, 2, 1, 3, 2, 8, 0, 3, 1, 1, 3, 7, 2, 3, 1, 1, 4, 9, 1, 2, 3, 1, 1, 8};
    static uint8_t plan[CV_DOUBLED_ROOM(N)], quiet[N * N * CV_RECORD_SIZE];
    cv_answer answer = cv_grating_doubled(N, cells, N * N, plan, sizeof plan);
    if (answer.code != CV_DONE)
        return 1;
    printf("records %" PRIu64 " total %" PRIu64 "\n", answer.records, answer.total);
    if (show(plan, (size_t)answer.records * CV_RECORD_SIZE))
        return 1;

    /* The same demand with at most LIMIT inputs on a wavelength, and what that costs at least. */
    cv_answer least = cv_grating_least(N, cells, N * N, LIMIT);
    answer = cv_grating_quiet(N, cells, N * N, LIMIT, quiet, sizeof quiet);
    if (least.code != CV_DONE || answer.code != CV_DONE)
        return 1;
    printf("quiet: records %" PRIu64 " total %" PRIu64 ", and no plan within %d has less than %" PRIu64 "\n", answer.records, answer.total, LIMIT, least.total);
    if (show(quiet, (size_t)answer.records * CV_RECORD_SIZE))
        return 1;
    return 0;
}
