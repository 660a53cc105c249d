/* From wishes to a demand: one wish by itself, one that is refused, and a list of two. */
#include <chordvenus.h>

#include <inttypes.h>
#include <stdio.h>
#include <string.h>

/* A number as the bits of a binary32. */
static uint32_t bits_of(float wish)
{
    uint32_t bits;
    memcpy(&bits, &wish, sizeof bits);
    return bits;
}

int main(void)
{
    cv_answer answer = cv_wish(bits_of(2.25f));
    if (answer.code != CV_DONE)
        return 1;
    printf("a wish of 2.25 is %" PRIu64 " slots\n", answer.total);

    answer = cv_wish(bits_of(-1.0f));
    printf("a wish of -1 is refused, code %" PRIu64 ": %s\n", answer.code, cv_words(answer.code));

    /* Input 0 wishes 1.5 slots of output 1, and input 1 wishes 4 of output 0. */
    const uint8_t list[2 * CV_WISH_SIZE] = {0, 1, 0, 0, 0, 0, 0xc0, 0x3f, 1, 0, 0, 0, 0, 0, 0x80, 0x40};
    uint32_t cells[2 * 2];
    answer = cv_wishes(2, list, sizeof list, cells, 4);
    if (answer.code != CV_DONE)
        return 1;
    printf("%" PRIu64 " wishes are the demand\n", answer.records);
    printf("%" PRIu32 " %" PRIu32 "\n%" PRIu32 " %" PRIu32 "\n", cells[0], cells[1], cells[2], cells[3]);
    return 0;
}
