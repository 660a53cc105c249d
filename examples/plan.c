/*
 * From wishes to a printed plan: memory is set aside before any wish is known, for lines of up to 8
 * slots; four wishes for a switch of two ports become a demand, the demand an exact plan, and the plan
 * is checked, read back record by record, and timed.
 *
 *     cc -Iinclude examples/plan.c target/staticlib/libchordvenus.a -o plan
 */
#include <chordvenus.h>

#include <inttypes.h>
#include <stdio.h>
#include <stdlib.h>
#include <string.h>

enum { PORTS = 2, LONGEST = 8, SWITCHING_TIME = 3 };

/* One wish record: input, output, two zero bytes, then a binary32, low byte first. */
static uint8_t *put_wish(uint8_t *list, uint8_t input, uint8_t output, float wish)
{
    uint32_t bits;
    memcpy(&bits, &wish, sizeof bits);
    list[0] = input;
    list[1] = output;
    list[2] = list[3] = 0;
    for (int k = 0; k < 4; k++)
        list[4 + k] = (uint8_t)(bits >> 8 * k);
    return list + CV_WISH_SIZE;
}

/* Says a refusal as the lister does. */
static int refused(cv_answer answer)
{
    const char *side[] = {"", "input ", "output "};
    printf("refused %" PRIu64 " %s%" PRIu64 "\n", answer.code, side[answer.side], answer.place);
    return 1;
}

static void print_record(const cv_step *step)
{
    printf("%" PRIu64, step->hold);
    for (int input = 0; input < PORTS; input++)
        if (step->outputs[input] == CV_IDLE)
            printf(" -");
        else
            printf(" %d", step->outputs[input]);
    printf("\n");
}

/* From the wishes to the demand, into the plan's memory and out again. */
static int plan_wishes(uint8_t *plan, size_t size)
{
    uint8_t list[4 * CV_WISH_SIZE];
    uint8_t *end = list;
    end = put_wish(end, 0, 0, 2.0f);
    end = put_wish(end, 0, 1, 1.0f);
    end = put_wish(end, 1, 0, 0.5f);
    end = put_wish(end, 1, 1, 1.5f);

    uint32_t cells[PORTS * PORTS];
    cv_answer answer = cv_wishes(PORTS, list, (size_t)(end - list), cells, PORTS * PORTS);
    if (answer.code != CV_DONE)
        return refused(answer);

    answer = cv_exact(PORTS, cells, PORTS * PORTS, plan, size);
    if (answer.code != CV_DONE)
        return refused(answer);
    size_t used = (size_t)answer.records * CV_RECORD_SIZE;
    printf("ports %d longest %" PRIu64 " records %" PRIu64 " total %" PRIu64
           " empty %" PRIu64 "\n", PORTS, answer.longest, answer.records, answer.total, answer.empty);

    cv_step step;
    for (uint64_t at = 0; (step = cv_step_at(PORTS, plan, used, at)).kind == CV_STEP_RECORD; at++)
        print_record(&step);

    answer = cv_check(PORTS, cells, PORTS * PORTS, plan, used);
    if (answer.code != CV_DONE)
        return refused(answer);
    answer = cv_length(PORTS, plan, used, SWITCHING_TIME);
    if (answer.code != CV_DONE)
        return refused(answer);
    printf("covered, in %" PRIu64 " slots at a switching time of %d\n", answer.length, SWITCHING_TIME);
    return 0;
}

int main(void)
{
    if (cv_version() != CV_VERSION) {
        fprintf(stderr, "the archive has version %" PRIu64 ", the header %d\n", cv_version(), CV_VERSION);
        return 2;
    }

    cv_answer room = cv_exact_room(PORTS, LONGEST);
    if (room.code != CV_DONE)
        return refused(room);
    size_t size = (size_t)room.records * CV_RECORD_SIZE;
    uint8_t *plan = malloc(size);
    if (plan == NULL)
        return 2;
    int status = plan_wishes(plan, size);
    free(plan);
    return status;
}
