/* How much room a plan needs: for every demand beforehand, in each edition, and for one demand asked. */
#include <chordvenus.h>

#include <inttypes.h>
#include <stdio.h>

typedef cv_answer room(uint64_t n, uint64_t longest);

static int show(const char *name, room *room_of, uint64_t n, uint64_t longest)
{
    cv_answer answer = room_of(n, longest);
    if (answer.code != CV_DONE)
        return 1;
    printf("%s, %" PRIu64 " ports, lines of up to %" PRIu64 ": %" PRIu64 " records\n", name, n, longest, answer.records);
    return 0;
}

int main(void)
{
    if (show("exact", cv_exact_room, 64, CV_MOST_LINE) || show("exact", cv_exact_room, 64, 100)
        || show("doubled", cv_doubled_room, 64, 100) || show("quick", cv_quick_room, 64, 100)
        || show("second edition, exact", cv2_exact_room, 128, CV_MOST_LINE)
        || show("second edition, doubled", cv2_doubled_room, 128, 100)
        || show("second edition, quick", cv2_quick_room, 128, 100))
        return 1;

    const uint32_t cells[] = {3, 1, 0, 2};
    cv_answer answer = cv_exact(2, cells, 4, NULL, 0);
    if (answer.code != CV_ROOM)
        return 1;
    printf("the exact plan of this demand has %" PRIu64 "\n", answer.place);
    return 0;
}
