/*
 * A flooded crossing: two rings of roads in a yard meet at junction 2, and planners ask the
 * same list of both replays. From one ring to the other no single road parts the way, answer
 * 2, and the loss of the crossing does, answer 1, until a road past it opens. Beside an only
 * road it is the other way round: its loss parts its two ends, and no third junction does.
 * Before that a work table that is long enough for lum_replay alone is refused and changes
 * nothing. The exit status is 1 where something is not as the header says, and 2 where the
 * archive has other calls.
 */
#include <stdio.h>
#include <string.h>

#include "lumzhasel.h"

enum { JUNCTIONS = 6, SEGMENTS = 8, EVENTS = 7 };

/* The rings 0, 1, 2 and 2, 3, 4; a road past the crossing, 1 to 3, which is closed at the
 * start; and the only road to 5. */
static const uint16_t a[SEGMENTS] = {0, 1, 2, 2, 3, 4, 1, 4};
static const uint16_t b[SEGMENTS] = {1, 2, 0, 3, 4, 2, 3, 5};
static const uint16_t start[SEGMENTS] = {1, 1, 1, 1, 1, 1, 0, 1};
static const uint16_t x[EVENTS] = {0, 0, 4, 0, LUM_OPENS, 0, 0};
static const uint16_t y[EVENTS] = {4, 2, 5, 5, 6, 4, 5};
static const uint8_t by_roads[EVENTS] = {2, 2, 1, 1, 3, 2, 1};
static const uint8_t by_junctions[EVENTS] = {1, 2, 2, 1, 3, 2, 1};

/* The tables that the calls may write. The answers have an entry more than they must have. */
struct tables {
    uint8_t answers[EVENTS + 1];
    uint16_t names[EVENTS];
    uint32_t work[LUM_REPLAY_JUNCTIONS_WORK(JUNCTIONS, SEGMENTS, EVENTS) + 1];
};

static struct lum_replay_reply replay(struct tables *t)
{
    struct lum_replay_lent lent = {
        .n = JUNCTIONS,
        .m = SEGMENTS,
        .t = EVENTS,
        .p = 8,
        .a = a,
        .a_len = SEGMENTS,
        .b = b,
        .b_len = SEGMENTS,
        .start = start,
        .start_len = SEGMENTS,
        .x = x,
        .x_len = EVENTS,
        .y = y,
        .y_len = EVENTS,
        .answers = t->answers,
        .answers_len = EVENTS,
        .names = t->names,
        .names_len = EVENTS,
        .work = t->work,
        .work_len = sizeof t->work / sizeof t->work[0],
    };
    return lum_replay(lent);
}

static struct lum_replay_junctions_reply replay_junctions(struct tables *t, size_t x_len,
                                                          size_t work_len)
{
    struct lum_replay_junctions_lent lent = {
        .n = JUNCTIONS,
        .m = SEGMENTS,
        .t = EVENTS,
        .p = 8,
        .a = a,
        .a_len = SEGMENTS,
        .b = b,
        .b_len = SEGMENTS,
        .start = start,
        .start_len = SEGMENTS,
        .x = x,
        .x_len = x_len,
        .y = y,
        .y_len = EVENTS,
        .answers = t->answers,
        .answers_len = EVENTS + 1,
        .work = t->work,
        .work_len = work_len,
    };
    return lum_replay_junctions(lent);
}

static int wrong(const char *what)
{
    fprintf(stderr, "%s\n", what);
    return 1;
}

int main(void)
{
    static struct tables roads, junctions, before;
    const size_t required = LUM_REPLAY_JUNCTIONS_WORK(JUNCTIONS, SEGMENTS, EVENTS);

    if (lum_version() != LUM_VERSION) {
        return 2;
    }

    /* Junk, so that an entry which changes is seen. */
    memset(&junctions, 0xA5, sizeof junctions);
    memcpy(&before, &junctions, sizeof before);
    memcpy(&roads, &junctions, sizeof roads);
    size_t of_replay = LUM_REPLAY_WORK(JUNCTIONS, SEGMENTS, EVENTS);
    if (replay_junctions(&junctions, EVENTS, of_replay).code != LUM_SHORT) {
        return wrong("a work table of the replay's length is not refused by 2");
    }
    if (replay_junctions(&junctions, EVENTS, required - 1).code != LUM_SHORT) {
        return wrong("a work table with an entry too few is not refused by 2");
    }
    if (replay_junctions(&junctions, EVENTS - 1, required).code != LUM_SHORT) {
        return wrong("a list with an entry too few is not refused by 2");
    }
    if (memcmp(&junctions, &before, sizeof before) != 0) {
        return wrong("a refusal has changed a table");
    }

    struct lum_replay_reply r = replay(&roads);
    struct lum_replay_junctions_reply s = replay_junctions(&junctions, EVENTS, required + 1);
    if (r.code != LUM_ACCEPTED || s.code != LUM_ACCEPTED) {
        return wrong("the list is refused");
    }
    for (size_t i = 0; i < EVENTS; i++) {
        if (lum_kind_of(x[i], JUNCTIONS) == LUM_KIND_OPENS) {
            printf("segment %u opens\n", (unsigned)y[i]);
        } else {
            printf("%u to %u: by roads %u, by junctions %u\n", (unsigned)x[i], (unsigned)y[i],
                   (unsigned)roads.answers[i], (unsigned)junctions.answers[i]);
        }
    }
    printf("%zu queries, %zu segments open at the end\n", s.queries, s.open);
    if (memcmp(roads.answers, by_roads, EVENTS) != 0) {
        return wrong("these are not the answers by roads");
    }
    if (memcmp(junctions.answers, by_junctions, EVENTS) != 0) {
        return wrong("these are not the answers by junctions");
    }
    if (r.queries != s.queries || r.open != s.open) {
        return wrong("the two replays count differently");
    }
    if (junctions.answers[EVENTS] != before.answers[EVENTS]) {
        return wrong("an entry behind the answers has changed");
    }
    for (size_t i = 0; i < required; i++) {
        if (junctions.work[i] != 0) {
            return wrong("the work table is not cleared");
        }
    }
    if (junctions.work[required] != before.work[required]) {
        return wrong("an entry behind the work table's length has changed");
    }
    return 0;
}
