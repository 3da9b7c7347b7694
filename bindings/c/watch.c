/*
 * What planners watch: replays a list over a row of junctions with a ring in its middle, and
 * prints beside each answer 1 the road that it hangs on, by its ends. Then it contracts the
 * open roads to the ends of the row: the one edge has the smallest name along it. Tables of
 * names one entry short are refused before that and change nothing, and so is the array of
 * first ends as a whole, which has an old entry behind the last segment. The exit status is 1
 * where something is not as the header says, and 2 where the archive has other calls.
 */
#include <stdio.h>
#include <string.h>

#include "lumzhasel.h"

enum { JUNCTIONS = 5, SEGMENTS = 6, EVENTS = 5, ENTRIES = 2 };

/* 0 - 1 - (2, 3) - 4, where 1, 2 and 3 are a ring. Segments 1 and 5 are one road, road 1, of
 * which only segment 5 is open at the start. Behind segment 5 the array of first ends has room
 * for one more, with what was left there. */
static const uint16_t a[SEGMENTS + 1] = {3, 0, 1, 2, 3, 1, 4};
static const uint16_t b[SEGMENTS] = {4, 1, 2, 3, 1, 0};
static const uint16_t start[SEGMENTS] = {1, 0, 1, 1, 1, 1};
static const uint16_t x[EVENTS] = {0, 1, 0, LUM_CLOSES, 2};
static const uint16_t y[EVENTS] = {1, 3, 4, 4, 1};
static const uint16_t watched[EVENTS] = {1, LUM_NO_NAME, 0, LUM_NO_NAME, 2};

/* The tables that the calls may write. The names have an entry more than they must have. */
struct tables {
    uint8_t answers[EVENTS];
    uint16_t names[EVENTS + 1];
    uint16_t map[ENTRIES];
    uint16_t out_from[2 * ENTRIES];
    uint16_t out_to[2 * ENTRIES];
    uint16_t out_names[2 * ENTRIES + 1];
    uint16_t pieces[ENTRIES];
    uint32_t work[LUM_REPLAY_WORK(JUNCTIONS, SEGMENTS, EVENTS)];
};

static struct lum_replay_reply replay(struct tables *t, size_t a_len, size_t names_len)
{
    struct lum_replay_lent lent = {
        .n = JUNCTIONS,
        .m = SEGMENTS,
        .t = EVENTS,
        .p = 8,
        .a = a,
        .a_len = a_len,
        .b = b,
        .b_len = SEGMENTS,
        .start = start,
        .start_len = SEGMENTS,
        .x = x,
        .x_len = EVENTS,
        .y = y,
        .y_len = EVENTS,
        .answers = t->answers,
        .answers_len = EVENTS,
        .names = t->names,
        .names_len = names_len,
        .work = t->work,
        .work_len = sizeof t->work / sizeof t->work[0],
    };
    return lum_replay(lent);
}

/* The five open roads with their names, contracted to junctions 0 and 4. */
static struct lum_contract_reply contract(struct tables *t, size_t names_len, size_t out_len)
{
    static const uint16_t from[] = {3, 0, 1, 2, 3};
    static const uint16_t to[] = {4, 1, 2, 3, 1};
    static const uint16_t names[] = {0, 1, 2, 3, 4};
    static const uint16_t active[ENTRIES] = {0, 4};
    struct lum_contract_lent lent = {
        .n = JUNCTIONS,
        .m = 5,
        .k = ENTRIES,
        .from = from,
        .from_len = 5,
        .to = to,
        .to_len = 5,
        .names = names,
        .names_len = names_len,
        .active = active,
        .active_len = ENTRIES,
        .map = t->map,
        .map_len = ENTRIES,
        .out_from = t->out_from,
        .out_from_len = 2 * ENTRIES,
        .out_to = t->out_to,
        .out_to_len = 2 * ENTRIES,
        .out_names = t->out_names,
        .out_names_len = out_len,
        .pieces = t->pieces,
        .pieces_len = ENTRIES,
        .work = t->work,
        .work_len = sizeof t->work / sizeof t->work[0],
    };
    return lum_contract(lent);
}

static int wrong(const char *what)
{
    fprintf(stderr, "%s\n", what);
    return 1;
}

int main(void)
{
    static struct tables t, before;

    if (lum_version() != LUM_VERSION) {
        return 2;
    }

    /* Junk, so that an entry which changes is seen. */
    memset(&t, 0xA5, sizeof t);
    memcpy(&before, &t, sizeof t);
    if (replay(&t, SEGMENTS, EVENTS - 1).code != LUM_SHORT) {
        return wrong("a short table of names is not refused by 2");
    }
    if (replay(&t, SEGMENTS + 1, EVENTS).code != LUM_LONG) {
        return wrong("an entry behind the segments is not refused by 12");
    }
    if (replay(&t, SEGMENTS + 1, EVENTS - 1).code != LUM_SHORT) {
        return wrong("12 comes before 2");
    }
    if (contract(&t, 4, 2 * ENTRIES).code != LUM_SHORT) {
        return wrong("a short table of names in is not refused by 2");
    }
    if (contract(&t, 5, 2 * ENTRIES - 1).code != LUM_SHORT) {
        return wrong("a short table of names out is not refused by 2");
    }
    if (memcmp(&t, &before, sizeof t) != 0) {
        return wrong("a refusal has changed a table");
    }

    if (replay(&t, SEGMENTS, EVENTS + 1).code != LUM_ACCEPTED) {
        return wrong("the list is refused");
    }
    for (size_t i = 0; i < EVENTS; i++) {
        if (t.names[i] != LUM_NO_NAME) {
            printf("%u to %u hangs on road %u, %u to %u\n", (unsigned)x[i], (unsigned)y[i],
                   (unsigned)t.names[i], (unsigned)a[t.names[i]], (unsigned)b[t.names[i]]);
        }
    }
    if (memcmp(t.names, watched, sizeof watched) != 0) {
        return wrong("these are not the roads to watch");
    }
    if (t.names[EVENTS] != before.names[EVENTS]) {
        return wrong("an entry behind the names has changed");
    }

    struct lum_contract_reply r = contract(&t, 5, 2 * ENTRIES + 1);
    if (r.code != LUM_ACCEPTED) {
        return wrong("the network is refused");
    }
    for (size_t e = 0; e < r.edges; e++) {
        printf("edge %u to %u has the name %u\n", (unsigned)t.out_from[e], (unsigned)t.out_to[e],
               (unsigned)t.out_names[e]);
    }
    if (t.out_names[r.edges] != before.out_names[r.edges]) {
        return wrong("more names are written than there are edges");
    }
    return 0;
}
