/* A store of jobs: a ring buffer of those that wait, and a sorted list of those that were done. */
#ifndef STORE_H
#define STORE_H

#include <stdbool.h>

enum { RING_CAPACITY = 8 };

struct ring {
    int items[RING_CAPACITY];
    int head;
    int count;
};

struct sorted {
    int capacity;
    int size;
    int *values;
};

/* Puts an item behind the others; false where the ring is full. */
bool ring_push(struct ring *ring, int item);

/* Takes the first item; false where there is none. */
bool ring_pop(struct ring *ring, int *item);

/* A list for so many values; false where there is no memory. */
bool sorted_open(struct sorted *list, int capacity);

/* Puts a value at its place, and answers this place, or -1 where the list is full. */
int sorted_insert(struct sorted *list, int value);

/* The place of a value, or -1. */
int sorted_find(const struct sorted *list, int value);

void sorted_close(struct sorted *list);

#endif
