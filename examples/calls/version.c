/* Header and archive have one version, and every code has its sentence. */
#include <chordvenus.h>

#include <inttypes.h>
#include <stdio.h>
#include <string.h>

int main(void)
{
    if (cv_version() != CV_VERSION)
        return 1;
    const char *none = cv_words(UINT64_MAX);
    for (uint64_t code = 0; code < 64; code++)
        if (strcmp(cv_words(code), none) != 0)
            printf("%" PRIu64 " %s\n", code, cv_words(code));
    printf("else %s\n", none);
    return 0;
}
