/*
 * The answers by the loss of a junction for a list in the program `replay`'s input form:
 *
 *     text/lumtext encode LIST | target/bindings/c/junctions
 *
 * It reads standard input and writes what `replay` writes, but for `kept`, which there is
 * none of: a line for each query, its event and its answer, then `asks Q open O`; or the one
 * line `refused C at I`. It has the limits of `replay` and refuses by 9 and 10 as that does.
 * The call is proved, what stands around it here is tested. The exit status is 0, also where
 * the list is refused, and 2 where the archive has other calls than the header.
 */
#include <stdio.h>

#include "lumzhasel.h"

enum { JUNCTIONS = 176, SEGMENTS = 64, EVENTS = 32, SIZES = 4 };
enum { NUMBERS = SIZES + 3 * SEGMENTS + 2 * EVENTS };

static unsigned char input[2 * NUMBERS + 1];
static uint16_t numbers[NUMBERS];
static uint8_t answers[EVENTS];
static uint32_t work[LUM_REPLAY_JUNCTIONS_WORK(JUNCTIONS, SEGMENTS, EVENTS)];

static int refused(size_t code, size_t place)
{
    printf("refused %zu at %zu\n", code, place);
    return 0;
}

int main(void)
{
    if (lum_version() != LUM_VERSION) {
        fprintf(stderr, "the archive has version %u of the calls and the header %u\n",
                (unsigned)lum_version(), (unsigned)LUM_VERSION);
        return 2;
    }

    /* One byte more than any list has: a longer input is refused by the first of them alone. */
    size_t length = fread(input, 1, sizeof input, stdin);
    for (size_t i = 0; i < NUMBERS; i++) {
        numbers[i] = (uint16_t)(input[2 * i] + 256 * input[2 * i + 1]);
    }
    size_t n = numbers[0], m = numbers[1], t = numbers[2];
    if (length < 2 * SIZES) {
        return refused(9, 0);
    }
    if (n > JUNCTIONS || m > SEGMENTS || t > EVENTS) {
        return refused(10, 0);
    }
    if (length != 2 * (SIZES + 3 * m + 2 * t)) {
        return refused(9, 0);
    }

    const uint16_t *tables = numbers + SIZES;
    struct lum_replay_junctions_lent lent = {
        .n = n,
        .m = m,
        .t = t,
        .p = numbers[3],
        .a = tables,
        .a_len = m,
        .b = tables + m,
        .b_len = m,
        .start = tables + 2 * m,
        .start_len = m,
        .x = tables + 3 * m,
        .x_len = t,
        .y = tables + 3 * m + t,
        .y_len = t,
        .answers = answers,
        .answers_len = EVENTS,
        .work = work,
        .work_len = sizeof work / sizeof work[0],
    };
    struct lum_replay_junctions_reply r = lum_replay_junctions(lent);
    if (r.code != LUM_ACCEPTED) {
        return refused(r.code, r.place);
    }
    for (size_t i = 0; i < t; i++) {
        if (answers[i] != LUM_NO_QUERY) {
            printf("%zu %u\n", i, (unsigned)answers[i]);
        }
    }
    printf("asks %zu open %zu\n", r.queries, r.open);
    return 0;
}
