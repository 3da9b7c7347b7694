/*
 * Two offices compare their answers by voice. Each reads the check number of all its bytes;
 * where the two differ, they halve: where the numbers of the first t bytes agree and those of
 * the first t + 1 do not, byte t differs. The exit status is 1 where something is not as the
 * header says, and 2 where the archive has other calls.
 */
#include <stdio.h>

#include "lumzhasel.h"

enum { EVENTS = 5 };

/* Document 01's example, and one where event 2 has another answer. */
static const uint8_t ours[EVENTS] = {3, 3, 1, 3, 2};
static const uint8_t theirs[EVENTS] = {3, 3, 2, 3, 2};

/* What an office reads. Here no call is refused. */
static uint32_t read_out(const uint8_t *table, size_t t)
{
    return lum_check_number(table, EVENTS, t).number;
}

static int wrong(const char *what)
{
    fprintf(stderr, "%s\n", what);
    return 1;
}

int main(void)
{
    if (lum_version() != LUM_VERSION) {
        return 2;
    }

    struct lum_check_number_reply r = lum_check_number(ours, EVENTS, LUM_MOST_EVENTS + 1);
    if (r.code != LUM_SIZES || r.place != 0 || r.number != 0) {
        return wrong("4,097 bytes are not refused by 1");
    }
    r = lum_check_number(ours, EVENTS, EVENTS + 1);
    if (r.code != LUM_SHORT || r.place != 0 || r.number != 0) {
        return wrong("a short table is not refused by 2");
    }
    r = lum_check_number(ours, EVENTS, 0);
    if (r.code != LUM_ACCEPTED || r.number != 1) {
        return wrong("the number of no bytes is not 1");
    }

    printf("%d events: %lu and %lu\n", EVENTS, (unsigned long)read_out(ours, EVENTS),
           (unsigned long)read_out(theirs, EVENTS));
    /* The numbers of the first `agree` bytes agree, those of the first `differ` do not. */
    size_t agree = 0, differ = EVENTS;
    while (differ - agree > 1) {
        size_t half = (agree + differ) / 2;
        if (read_out(ours, half) == read_out(theirs, half)) {
            agree = half;
        } else {
            differ = half;
        }
    }
    printf("the answers to event %zu differ: %u and %u\n", agree, (unsigned)ours[agree],
           (unsigned)theirs[agree]);
    return ours[agree] == theirs[agree];
}
