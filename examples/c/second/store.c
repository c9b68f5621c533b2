#include <stdlib.h>

#include "../store.h"

bool ring_push(struct ring *ring, int item)
{
    if (ring->count == RING_CAPACITY)
        return false;
    ring->items[(ring->head + ring->count) % RING_CAPACITY] = item;
    ring->count++;
    return true;
}

bool ring_pop(struct ring *ring, int *item)
{
    if (ring->count == 0)
        return false;
    *item = ring->items[ring->head];
    ring->head = (ring->head + 1) % RING_CAPACITY;
    ring->count--;
    return true;
}

bool sorted_open(struct sorted *list, int capacity)
{
    list->values = calloc((size_t)capacity, sizeof *list->values);
    list->capacity = capacity;
    list->size = 0;
    return list->values != NULL;
}

int sorted_insert(struct sorted *list, int value)
{
    int place = list->size;

    if (list->size == list->capacity)
        return -1;
    while (place > 1 && list->values[place - 1] > value) {
        list->values[place] = list->values[place - 1];
        place--;
    }
    list->values[place] = value;
    list->size++;
    return place;
}

int sorted_find(const struct sorted *list, int value)
{
    int low = 0;
    int high = list->size;

    while (low < high) {
        int middle = low + (high - low) / 2;
        if (list->values[middle] < value)
            low = middle + 1;
        else
            high = middle;
    }
    return low < list->size && list->values[low] == value ? low : -1;
}

void sorted_close(struct sorted *list)
{
    free(list->values);
    list->values = NULL;
    list->capacity = 0;
    list->size = 0;
}
