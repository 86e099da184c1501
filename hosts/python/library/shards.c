/* The recorders of a run as shards: any thread takes one of them for a recording. */
#include "handles.h"

/* Where a thread begins to look for a shard: 1 more than that, 0 before it looked. */
static _Thread_local size_t hint;
static _Atomic size_t hints;

static size_t first_of(size_t count) {
    if (hint == 0) {
        hint = 1 + atomic_fetch_add_explicit(&hints, 1, memory_order_relaxed);
    }
    return (hint - 1) % count;
}

/* A plan has at most 64 recorders, so that a set of them is a number. */
static uint64_t bit(size_t at) { return (uint64_t)1 << at; }

static int is_spent(const Handles *own, size_t instrument, size_t at) {
    return (own->spent[instrument] & bit(at)) != 0;
}

static int are_spent(const Handles *own, size_t instrument) {
    for (size_t at = 0; at < own->lists.counts.recorders; at++) {
        if (!is_spent(own, instrument, at)) {
            return 0;
        }
    }
    return 1;
}

static uint64_t *kept_of(Handles *own, size_t at, size_t instrument) {
    return &own->kept[at * own->lists.counts.instruments + instrument];
}

/* Whether a recording is left to count out what is counted in now, beside those for what is under way. */
static int has_room(Handles *own, size_t at, size_t instrument) {
    wormweekly_budget_out budget = { 0, 0, 0, 0 };
    uint32_t answer = wormweekly_budget(&own->lists.instruments[instrument], &own->lists.recorders[at], &budget);
    return answer == WORMWEEKLY_DONE && budget.left >= *kept_of(own, at, instrument) + 2;
}

/* Makes a recording by a shard, under its mutex and that of the instrument. */
static uint32_t make(Handles *own, size_t at, size_t instrument, Recording *what) {
    wormweekly_instrument *on = &own->lists.instruments[instrument];
    wormweekly_recorder *by = &own->lists.recorders[at];
    const Attributes *given = what->given;
    uint32_t answer;
    if (what->is_counted_in && !has_room(own, at, instrument)) {
        return WORMWEEKLY_BUDGET;
    }
    answer = given == NULL ? wormweekly_record_prepared(on, by, &what->prepared)
                           : wormweekly_record(on, by, given->bytes, given->length, given->all, given->count,
                                               what->prepared.value);
    if (answer == WORMWEEKLY_BUDGET) {
        own->spent[instrument] |= bit(at);
    } else if (answer == WORMWEEKLY_DONE && what->is_counted_in) {
        what->place = (Place){ at, own->runs };
        ++*kept_of(own, at, instrument);
    }
    return answer;
}

static uint32_t make_locked(Handles *own, size_t at, size_t instrument, Recording *what) {
    uint32_t answer;
    handles_lock(&own->instrument_locks[instrument]);
    answer = make(own, at, instrument, what);
    pthread_mutex_unlock(&own->instrument_locks[instrument]);
    pthread_mutex_unlock(&own->recorder_locks[at]);
    return answer;
}

/* By the shards that nobody uses, or else by waiting for those that somebody does, which takes as long as one
   recording. Those that are known to be spent are left out. */
static uint32_t by_shards(Handles *own, size_t instrument, Recording *what, int (*take)(pthread_mutex_t *)) {
    size_t count = own->lists.counts.recorders, first = first_of(count);
    for (size_t step = 0; step < count; step++) {
        size_t at = (first + step) % count;
        uint32_t answer;
        if (is_spent(own, instrument, at) || take(&own->recorder_locks[at]) != 0) {
            continue;
        }
        answer = make_locked(own, at, instrument, what);
        if (answer != WORMWEEKLY_BUDGET) {
            return answer;
        }
    }
    return WORMWEEKLY_BUDGET;
}

/* Asks for a part of what is spare, so that something is left for the other shards. */
static uint32_t ask(Handles *own, size_t at, size_t instrument) {
    wormweekly_instrument *on = &own->lists.instruments[instrument];
    wormweekly_spare_out spare = { 0, 0, 0 };
    uint32_t answer = wormweekly_spare(on, &spare);
    uint64_t part = spare.left / (2 * own->lists.counts.recorders);
    if (answer == WORMWEEKLY_DONE && spare.left == 0) {
        answer = WORMWEEKLY_NO_SPARE;
    }
    if (answer == WORMWEEKLY_DONE) {
        answer = wormweekly_ask(on, &own->lists.recorders[at], part > 0 ? part : 1);
    }
    if (answer == WORMWEEKLY_DONE) {
        own->spent[instrument] &= ~bit(at);
    }
    return answer;
}

/* By this thread's own shard, which asks the spare budget. What wants more than one recording may ask more than
   once. */
static uint32_t by_spare(Handles *own, size_t instrument, Recording *what) {
    size_t at = first_of(own->lists.counts.recorders);
    uint32_t answer = WORMWEEKLY_BUDGET, asked = WORMWEEKLY_DONE;
    handles_lock(&own->recorder_locks[at]);
    handles_lock(&own->instrument_locks[instrument]);
    while (answer == WORMWEEKLY_BUDGET && asked == WORMWEEKLY_DONE) {
        asked = ask(own, at, instrument);
        answer = asked == WORMWEEKLY_DONE ? make(own, at, instrument, what) : asked;
    }
    pthread_mutex_unlock(&own->instrument_locks[instrument]);
    pthread_mutex_unlock(&own->recorder_locks[at]);
    return answer == WORMWEEKLY_NO_SPARE ? WORMWEEKLY_BUDGET : answer;
}

static uint32_t record_once(Handles *own, size_t instrument, Recording *what) {
    uint32_t answer = by_shards(own, instrument, what, pthread_mutex_trylock);
    if (answer == WORMWEEKLY_BUDGET) {
        answer = by_shards(own, instrument, what, handles_lock);
    }
    return answer == WORMWEEKLY_BUDGET ? by_spare(own, instrument, what) : answer;
}

uint32_t handles_record_shared(Handles *own, size_t instrument, Recording *what) {
    uint32_t answer;
    if (own->lists.counts.recorders == 0) {
        return WORMWEEKLY_UNKNOWN_RECORDER;
    }
    do {
        answer = record_once(own, instrument, what);
        /* another thread may have been granted what was spare meanwhile, and has some of it left */
    } while (answer == WORMWEEKLY_BUDGET && !what->is_counted_in && !are_spent(own, instrument));
    return answer;
}

/* What was counted in is counted out by the same shard, and by another one where something else took what was kept. */
uint32_t handles_count_out(Handles *own, size_t instrument, const wormweekly_prepared *prepared, const Place *place) {
    Recording what = { .prepared = *prepared };
    uint32_t answer;
    handles_lock(&own->recorder_locks[place->recorder]);
    if (own->runs != place->run) {
        pthread_mutex_unlock(&own->recorder_locks[place->recorder]);
        return WORMWEEKLY_DONE;
    }
    --*kept_of(own, place->recorder, instrument);
    answer = make_locked(own, place->recorder, instrument, &what);
    return answer == WORMWEEKLY_BUDGET ? handles_record_shared(own, instrument, &what) : answer;
}
