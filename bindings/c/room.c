/* The room that the header's macros set aside is what the calls of the same name answer, for every N and every T. */
#include <chordvenus.h>

#include <inttypes.h>
#include <stdio.h>

static int wrong;

static void same(const char *name, uint64_t of, size_t bytes, size_t record, cv_answer room)
{
    if (room.code != CV_DONE || room.records * record != bytes) {
        printf("%s(%" PRIu64 ") is %zu bytes, the call says %" PRIu64 " records\n", name, of, bytes, room.records);
        wrong++;
    }
}

int main(void)
{
    static uint8_t plan[CV_EXACT_ROOM(CV_MOST_PORTS) + CV_DOUBLED_ROOM(CV_MOST_PORTS) + CV_QUICK_ROOM(CV_MOST_QUICK)];
    for (size_t n = 1; n <= CV_MOST_PORTS; n++) {
        same("CV_EXACT_ROOM", n, CV_EXACT_ROOM(n), CV_RECORD_SIZE, cv_exact_room(n, CV_MOST_LINE));
        same("CV_DOUBLED_ROOM", n, CV_DOUBLED_ROOM(n), CV_RECORD_SIZE, cv_doubled_room(n, CV_MOST_LINE));
    }
    for (size_t n = 1; n <= CV2_MOST_PORTS; n++) {
        same("CV2_EXACT_ROOM", n, CV2_EXACT_ROOM(n), CV2_RECORD_SIZE, cv2_exact_room(n, CV_MOST_LINE));
        same("CV2_DOUBLED_ROOM", n, CV2_DOUBLED_ROOM(n), CV2_RECORD_SIZE, cv2_doubled_room(n, CV_MOST_LINE));
    }
    for (size_t longest = 0; longest <= CV_MOST_QUICK; longest++) {
        same("CV_QUICK_ROOM", longest, CV_QUICK_ROOM(longest), CV_RECORD_SIZE, cv_quick_room(1, longest));
        same("CV2_QUICK_ROOM", longest, CV2_QUICK_ROOM(longest), CV2_RECORD_SIZE, cv2_quick_room(1, longest));
    }
    printf("room for arrays: %zu bytes hold one plan of each kind, %d macros wrong\n", sizeof plan, wrong);
    return wrong != 0;
}
