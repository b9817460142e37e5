#include "deadlines.h"

#include "faults.h"

static void put(struct deadlines *it, size_t place, size_t entry) {
    it->heap[place] = entry;
    it->places[entry] = place;
}

static uint64_t moment_at(const struct deadlines *it, size_t place) {
    return it->moments[it->heap[place]];
}

void deadlines_open(struct deadlines *it, size_t count) {
    *it = (struct deadlines){.count = count};
    it->moments = take(count, sizeof *it->moments);
    it->heap = take(count, sizeof *it->heap);
    it->places = take(count, sizeof *it->places);
    for (size_t entry = 0; entry < count; entry++) {
        it->moments[entry] = UINT64_MAX;
        put(it, entry, entry);
    }
}

/* Moves an entry towards the top while its parent is later. */
static size_t rise(struct deadlines *it, size_t place, size_t entry) {
    while (place > 0 && moment_at(it, (place - 1) / 2) > it->moments[entry]) {
        put(it, place, it->heap[(place - 1) / 2]);
        place = (place - 1) / 2;
    }
    return place;
}

/* Moves an entry away from the top while a child is earlier. */
static size_t sink(struct deadlines *it, size_t place, size_t entry) {
    for (size_t child; (child = 2 * place + 1) < it->count; place = child) {
        if (child + 1 < it->count && moment_at(it, child + 1) < moment_at(it, child))
            child++;
        if (moment_at(it, child) >= it->moments[entry])
            break;
        put(it, place, it->heap[child]);
    }
    return place;
}

void deadlines_set(struct deadlines *it, size_t entry, uint64_t moment) {
    if (it->moments[entry] == moment)
        return;
    it->moments[entry] = moment;
    put(it, sink(it, rise(it, it->places[entry], entry), entry), entry);
}

size_t deadlines_first(const struct deadlines *it) {
    return it->heap[0];
}
