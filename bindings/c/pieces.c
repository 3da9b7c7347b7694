/*
 * Contracts a network of two areas that no road joins to active junctions which lie in the one
 * and in the other by turns, and prints the colour of each: the number of its connected piece.
 * A table of pieces one entry short is refused before that and changes nothing. The exit status
 * is 1 where something is not as the header says, and 2 where the archive has other calls.
 */
#include <stdio.h>
#include <string.h>

#include "lumzhasel.h"

enum { NODES = 7, EDGES = 6, ENTRIES = 6 };

/* The even junctions: a triangle, and a road from it to 6. The odd ones: a road over 1, 3, 5. */
static const uint16_t from[EDGES] = {0, 2, 4, 4, 1, 3};
static const uint16_t to[EDGES] = {2, 4, 0, 6, 3, 5};
static const uint16_t names[EDGES] = {0, 1, 2, 3, 4, 5};
static const uint16_t active[ENTRIES] = {6, 1, 0, 5, 6, 1};
static const uint16_t colours[ENTRIES] = {0, 1, 0, 1, 0, 1};

/* The tables that the call may write, the pieces with an entry more than they must have. */
struct tables {
    uint16_t map[ENTRIES];
    uint16_t out_from[2 * ENTRIES];
    uint16_t out_to[2 * ENTRIES];
    uint16_t out_names[2 * ENTRIES];
    uint16_t pieces[ENTRIES + 1];
    uint32_t work[LUM_CONTRACT_WORK(NODES, EDGES)];
};

static struct lum_contract_reply contract(struct tables *t, size_t pieces_len)
{
    struct lum_contract_lent lent = {
        .n = NODES,
        .m = EDGES,
        .k = ENTRIES,
        .from = from,
        .from_len = EDGES,
        .to = to,
        .to_len = EDGES,
        .names = names,
        .names_len = EDGES,
        .active = active,
        .active_len = ENTRIES,
        .map = t->map,
        .map_len = ENTRIES,
        .out_from = t->out_from,
        .out_from_len = 2 * ENTRIES,
        .out_to = t->out_to,
        .out_to_len = 2 * ENTRIES,
        .out_names = t->out_names,
        .out_names_len = 2 * ENTRIES,
        .pieces = t->pieces,
        .pieces_len = pieces_len,
        .work = t->work,
        .work_len = sizeof t->work / sizeof t->work[0],
    };
    return lum_contract(lent);
}

static int wrong(const char *what)
{
    fprintf(stderr, "%s\n", what);
    return 1;
}

int main(void)
{
    static struct tables t, before;

    if (lum_version() != LUM_VERSION) {
        return 2;
    }

    /* Junk, so that an entry which changes is seen. */
    memset(&t, 0xA5, sizeof t);
    memcpy(&before, &t, sizeof t);
    struct lum_contract_reply r = contract(&t, ENTRIES - 1);
    if (r.code != LUM_SHORT || r.place != 0) {
        return wrong("a short table is not refused by 2");
    }
    if (memcmp(&t, &before, sizeof t) != 0) {
        return wrong("a refusal has changed a table");
    }

    r = contract(&t, ENTRIES + 1);
    if (r.code != LUM_ACCEPTED) {
        return wrong("the network is refused");
    }
    for (size_t i = 0; i < ENTRIES; i++) {
        printf("junction %u colour %u\n", (unsigned)active[i], (unsigned)t.pieces[i]);
    }
    if (memcmp(t.pieces, colours, sizeof colours) != 0) {
        return wrong("these are not the pieces");
    }
    if (t.pieces[ENTRIES] != before.pieces[ENTRIES]) {
        return wrong("an entry behind the pieces has changed");
    }
    return 0;
}
