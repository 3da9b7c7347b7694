/*
 * Replays document 01's example, a triangle whose segments open one after the other, with
 * two queries of junctions 0 and 2, and prints what the program `replay` prints. No two of
 * the segments have the same ends, so each is a road: first the loss of one breaks the way,
 * answer 1, then there is another way round, answer 2. An argument is taken as the share in
 * the place of 8. The exit status is 1 where the replay is refused, and 2 where the archive
 * has other calls than the header.
 */
#include <stdio.h>
#include <stdlib.h>

#include "lumzhasel.h"

enum { JUNCTIONS = 3, SEGMENTS = 3, EVENTS = 5 };

int main(int argc, char **argv)
{
    const uint16_t a[SEGMENTS] = {0, 1, 2};
    const uint16_t b[SEGMENTS] = {1, 2, 0};
    const uint16_t start[SEGMENTS] = {0}; /* all closed */
    const uint16_t x[EVENTS] = {LUM_OPENS, LUM_OPENS, 0, LUM_OPENS, 0};
    const uint16_t y[EVENTS] = {0, 1, 2, 2, 2};
    uint8_t answers[EVENTS] = {0};
    uint16_t names[EVENTS] = {0};
    static uint32_t work[LUM_REPLAY_WORK(JUNCTIONS, SEGMENTS, EVENTS)];
    size_t share = argc > 1 ? strtoul(argv[1], NULL, 10) : 8;

    if (lum_version() != LUM_VERSION) {
        fprintf(stderr, "the archive has version %u of the calls and the header %u\n",
                (unsigned)lum_version(), (unsigned)LUM_VERSION);
        return 2;
    }

    struct lum_replay_lent lent = {
        .n = JUNCTIONS,
        .m = SEGMENTS,
        .t = EVENTS,
        .p = share,
        .a = a,
        .a_len = SEGMENTS,
        .b = b,
        .b_len = SEGMENTS,
        .start = start,
        .start_len = SEGMENTS,
        .x = x,
        .x_len = EVENTS,
        .y = y,
        .y_len = EVENTS,
        .answers = answers,
        .answers_len = EVENTS,
        .names = names,
        .names_len = EVENTS,
        .work = work,
        .work_len = sizeof work / sizeof work[0],
    };
    struct lum_replay_reply r = lum_replay(lent);

    if (r.code != LUM_ACCEPTED) {
        printf("refused %zu at %zu\n", r.code, r.place);
        fprintf(stderr, "%s\n", lum_refusal_text(r.code));
        return 1;
    }
    size_t given = lum_answers(answers, EVENTS, EVENTS);
    for (size_t i = 0; i < given; i++) {
        if (answers[i] != LUM_NO_QUERY) {
            printf("%zu %u\n", i, (unsigned)answers[i]);
        }
    }
    printf("asks %zu open %zu kept %zu\n", r.queries, r.open, r.kept);
    return 0;
}
