/*
 * The kinds of the events in document 01's example, and of an x that is of no kind. The exit
 * status is 1 where some of all 65,536 numbers has another kind than the table of events
 * gives it, and 2 where the archive has other calls.
 */
#include <stdio.h>

#include "lumzhasel.h"

enum { JUNCTIONS = 3, EVENTS = 6 };

/* The example's x, and junction 3, which the example does not have. */
static const uint16_t xs[EVENTS] = {LUM_OPENS, LUM_OPENS, 0, LUM_OPENS, 0, 3};

static const char *word(enum lum_kind kind)
{
    switch (kind) {
    case LUM_KIND_QUERY:
        return "query";
    case LUM_KIND_OPENS:
        return "opens";
    case LUM_KIND_CLOSES:
        return "closes";
    case LUM_KIND_NONE:
        return "none";
    }
    return "?";
}

int main(void)
{
    if (lum_version() != LUM_VERSION) {
        return 2;
    }
    for (int i = 0; i < EVENTS; i++) {
        printf("event %d: %s\n", i, word(lum_kind_of(xs[i], JUNCTIONS)));
    }

    for (unsigned n = 0; n <= LUM_MOST_JUNCTIONS; n += 512) {
        unsigned found[4] = {0, 0, 0, 0};
        for (unsigned x = 0; x < 65536; x++) {
            enum lum_kind kind = lum_kind_of((uint16_t)x, n);
            found[kind]++;
            if ((kind == LUM_KIND_QUERY) != (x < n)) {
                return 1;
            }
        }
        if (found[LUM_KIND_OPENS] != 1 || lum_kind_of(LUM_OPENS, n) != LUM_KIND_OPENS) {
            return 1;
        }
        if (found[LUM_KIND_CLOSES] != 1 || lum_kind_of(LUM_CLOSES, n) != LUM_KIND_CLOSES) {
            return 1;
        }
    }
    return 0;
}
