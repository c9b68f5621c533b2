/* Drives the store: jobs come and are done by turns, and some are looked for afterwards. */
#include <stdio.h>

#include "store.h"

enum { JOBS = 60, DONE = 40 };

static unsigned state = 7;

static int draw(int below)
{
    state = state * 1103515245 + 12345;
    return (int)(state / 65536 % (unsigned)below);
}

static void finish_some(struct ring *ring, struct sorted *list, int most)
{
    int job;

    while (most-- > 0 && ring_pop(ring, &job))
        sorted_insert(list, job);
}

int main(void)
{
    struct ring ring = {{0}, 0, 0};
    struct sorted list;
    int refused = 0;
    int found = 0;

    if (!sorted_open(&list, DONE))
        return 1;
    for (int job = 0; job < JOBS; job++) {
        if (!ring_push(&ring, 100 + draw(900)))
            refused++;
        if (draw(4) == 0)
            finish_some(&ring, &list, 1 + draw(5));
    }
    for (int value = 100; value < 1000; value += 5)
        if (sorted_find(&list, value) >= 0)
            found++;
    printf("%d refused, %d done, %d found\n", refused, list.size, found);
    sorted_close(&list);
    return 0;
}
