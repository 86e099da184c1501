#define _POSIX_C_SOURCE 200809L
#include "shards.h"

#include <stdlib.h>
#include <string.h>
#include <time.h>

void fill_shards(shard *shards, guarded *guards, wormweekly_instrument *instruments, wormweekly_recorder *recorders,
                 const wormweekly_counts *counts) {
    for (size_t at = 0; at < counts->instruments; at++) {
        guards[at].instrument = &instruments[at];
        sem_init(&guards[at].free, 0, 1);
    }
    for (size_t at = 0; at < counts->recorders * counts->instruments; at++) {
        size_t recorder = at / counts->instruments, number = at % counts->instruments;
        shards[at] = (shard){ &guards[number], &recorders[recorder], (uint64_t)1 << recorder, 0, (uint32_t)number };
    }
}

void free_shards(shard *shards, guarded *guards, const wormweekly_counts *counts) {
    for (size_t at = 0; at < counts->instruments && guards[at].instrument != NULL; at++) {
        sem_destroy(&guards[at].free);
    }
    free(guards);
    free(shards);
}

/* An instrument */

static uint64_t nanoseconds(void) {
    struct timespec now;
    clock_gettime(CLOCK_MONOTONIC, &now);
    return (uint64_t)now.tv_sec * 1000000000 + (uint64_t)now.tv_nsec;
}

static void wait_for(guarded *on) {
    uint64_t began = nanoseconds(), took;
    while (sem_wait(&on->free) != 0) {
        continue;
    }
    took = nanoseconds() - began;
    on->waits++;
    on->longest = took > on->longest ? took : on->longest;
}

static void pause_for(int times) {
    while (times-- > 0) {
#if defined(__x86_64__)
        __builtin_ia32_pause();
#endif
    }
}

/* A list of recordings takes less than it takes to sleep. Who tries again and again slows down who has it. */
static wormweekly_instrument *take(guarded *on) {
    for (int pauses = 4; pauses <= 256; pauses *= 2) {
        if (sem_trywait(&on->free) == 0) {
            return on->instrument;
        }
        pause_for(pauses);
    }
    wait_for(on);
    return on->instrument;
}

static uint32_t given_back(guarded *on, uint32_t answer) {
    sem_post(&on->free);
    return answer;
}

uint32_t grant_on(guarded *on, uint64_t *spent, uint32_t recorder, uint64_t amount) {
    uint32_t answer = wormweekly_grant(take(on), recorder, amount);
    if (answer == WORMWEEKLY_DONE) {
        __atomic_store_n(spent, 0, __ATOMIC_SEQ_CST);
    }
    return given_back(on, answer);
}

uint32_t spare_on(guarded *on, wormweekly_spare_out *spare) {
    return given_back(on, wormweekly_spare(take(on), spare));
}

uint32_t close_on(guarded *on) { return given_back(on, wormweekly_close(take(on))); }

uint32_t collect_on(guarded *on, wormweekly_reader *reader, uint64_t now, int keeps) {
    wormweekly_instrument *held = take(on);
    return given_back(on, keeps ? wormweekly_collect_also(held, reader, now) : wormweekly_collect(held, reader, now));
}

uint32_t settle_on(guarded *on, wormweekly_recorder *recorders, size_t count, wormweekly_total *total) {
    return given_back(on, wormweekly_settle(take(on), recorders, count, total));
}

void waits_on(guarded *on, uint64_t *waits, uint64_t *longest) {
    take(on);
    *waits = on->waits;
    *longest = on->longest;
    given_back(on, WORMWEEKLY_DONE);
}

/* A recorder */

static void give_back(uint32_t *taken) {
    if (taken != NULL) {
        __atomic_store_n(taken, 0, __ATOMIC_RELEASE);
    }
}

static uint32_t end(shard *own, uint32_t *taken, uint32_t answer) {
    given_back(own->on, answer);
    give_back(taken);
    return answer;
}

/* Makes what is kept of an instrument that is taken. What is refused, for want of memory alone, stays. */
static uint32_t hand_over(shard *own, kept *all) {
    size_t made = 0;
    uint32_t answer = WORMWEEKLY_DONE;
    if (all->length > 0) {
        answer = wormweekly_record_list(own->on->instrument, own->recorder, all->list, all->length, &made);
        all->length -= made;
        memmove(all->list, all->list + made, all->length * sizeof *all->list);
    }
    return answer;
}

/* Before something else is recorded: what is left is another number after it. */
static uint32_t begin(shard *own, uint8_t *list) {
    kept *all = (kept *)list;
    uint32_t answer = WORMWEEKLY_DONE;
    take(own->on);
    if (all != NULL) {
        answer = hand_over(own, all);
        all->left = 0;
    }
    return answer;
}

static void set_of(wormweekly_prepared *prepared, uint64_t low, uint64_t high, int64_t value) {
    memcpy(prepared->set, &low, sizeof low);
    memcpy(prepared->set + 4, &high, sizeof high);
    prepared->value = value;
}

/* Recordings */

static uint32_t recorded(shard *own, uint64_t *spent, uint32_t answer) {
    if (answer == WORMWEEKLY_BUDGET) {
        __atomic_or_fetch(spent, own->bit, __ATOMIC_SEQ_CST);
    }
    return answer;
}

static uint32_t recorded_set(shard *own, uint64_t *spent, uint64_t low, uint64_t high, int64_t value) {
    wormweekly_prepared prepared;
    set_of(&prepared, low, high, value);
    return recorded(own, spent, wormweekly_record_prepared(own->on->instrument, own->recorder, &prepared));
}

uint32_t record_set(PLACE, uint64_t *spent, uint64_t low, uint64_t high, int64_t value) {
    shard *own = (shard *)at;
    uint32_t answer = begin(own, list);
    if (answer == WORMWEEKLY_DONE) {
        answer = recorded_set(own, spent, low, high, value);
    }
    return end(own, taken, answer);
}

uint32_t record_given(PLACE, uint64_t *spent, GIVEN, int64_t value) {
    shard *own = (shard *)at;
    uint32_t answer = begin(own, list);
    if (answer == WORMWEEKLY_DONE) {
        answer = recorded(own, spent, wormweekly_record(own->on->instrument, own->recorder, texts, length, attributes,
                                                        count, value));
    }
    return end(own, taken, answer);
}

listed record_list(PLACE, const wormweekly_prepared *all, size_t length) {
    shard *own = (shard *)at;
    listed done = { begin(own, list), 0 };
    if (done.answer == WORMWEEKLY_DONE) {
        done.answer = wormweekly_record_list(own->on->instrument, own->recorder, all, length, &done.made);
    }
    end(own, taken, done.answer);
    return done;
}

/* Whether a recording is left to count out what is counted in now, beside those for what is under way. */
static int has_room(shard *own) {
    wormweekly_budget_out budget = { 0, 0, 0, 0 };
    uint32_t answer = wormweekly_budget(own->on->instrument, own->recorder, &budget);
    return answer == WORMWEEKLY_DONE && budget.left >= own->under_way + 2;
}

uint32_t count_in(PLACE, uint64_t *spent, uint64_t low, uint64_t high) {
    shard *own = (shard *)at;
    uint32_t answer = begin(own, list);
    if (answer == WORMWEEKLY_DONE) {
        answer = has_room(own) ? recorded_set(own, spent, low, high, 1) : WORMWEEKLY_BUDGET;
    }
    if (answer == WORMWEEKLY_DONE) {
        own->under_way++;
    }
    return end(own, taken, answer);
}

uint32_t count_out(PLACE, uint64_t *spent, uint64_t low, uint64_t high) {
    shard *own = (shard *)at;
    own->under_way--;
    return record_set(at, list, taken, spent, low, high, -1);
}

/* What is kept */

/* Whether there is place for one more, after what is kept was made where there was none. */
static int has_place(shard *own, kept *all) {
    wormweekly_budget_out budget = { 0, 0, 0, 0 };
    uint32_t answer;
    if (all->length < MOST_KEPT && all->left > 0) {
        return 1;
    }
    take(own->on);
    answer = hand_over(own, all);
    wormweekly_budget(own->on->instrument, own->recorder, &budget);
    given_back(own->on, answer);
    all->left = budget.left - all->length;
    return answer == WORMWEEKLY_DONE && all->left > 0;
}

uint32_t make_place(PLACE) {
    uint32_t is_made = has_place((shard *)at, (kept *)list) ? 1 : 0;
    give_back(taken);
    return is_made;
}

keeping keep_given(PLACE, GIVEN, int64_t value) {
    shard *own = (shard *)at;
    kept *all = (kept *)list;
    keeping done = { WORMWEEKLY_DONE, 0 };
    if (has_place(own, all)) {
        done.answer = wormweekly_prepare(own->recorder, own->number, texts, length, attributes, count,
                                         &all->list[all->length]);
        done.is_done = 1;
    }
    if (done.is_done && done.answer == WORMWEEKLY_DONE) {
        all->list[all->length].value = value;
        all->length++;
        all->left--;
    }
    give_back(taken);
    return done;
}

uint32_t make_kept(PLACE, int closes) {
    shard *own = (shard *)at;
    kept *all = (kept *)list;
    uint32_t answer;
    take(own->on);
    answer = hand_over(own, all);
    if (closes) {
        all->left = 0;
    }
    return end(own, taken, answer);
}

/* Budgets */

static uint32_t granted(uint64_t *spent, uint32_t answer) {
    if (answer == WORMWEEKLY_DONE) {
        __atomic_store_n(spent, 0, __ATOMIC_SEQ_CST);
    }
    return answer;
}

uint32_t ask_by(PLACE, uint64_t *spent, uint64_t amount) {
    shard *own = (shard *)at;
    uint32_t answer = begin(own, list);
    if (answer == WORMWEEKLY_DONE) {
        answer = granted(spent, wormweekly_ask(own->on->instrument, own->recorder, amount));
    }
    return end(own, taken, answer);
}

uint32_t ask_part(PLACE, uint64_t *spent, size_t recorders) {
    shard *own = (shard *)at;
    wormweekly_spare_out spare = { 0, 0, 0 };
    uint32_t answer = begin(own, list);
    if (answer == WORMWEEKLY_DONE) {
        answer = wormweekly_spare(own->on->instrument, &spare);
    }
    if (answer == WORMWEEKLY_DONE && spare.left == 0) {
        answer = WORMWEEKLY_NO_SPARE;
    }
    if (answer == WORMWEEKLY_DONE) {
        uint64_t part = spare.left / (2 * recorders);
        answer = granted(spent, wormweekly_ask(own->on->instrument, own->recorder, part > 0 ? part : 1));
    }
    return end(own, taken, answer);
}

uint32_t budget_by(PLACE, wormweekly_budget_out *budget) {
    shard *own = (shard *)at;
    uint32_t answer = begin(own, list);
    if (answer == WORMWEEKLY_DONE) {
        answer = wormweekly_budget(own->on->instrument, own->recorder, budget);
    }
    return end(own, taken, answer);
}

/* Attributes */

found prepare_by(uint8_t *at, uint32_t *taken, GIVEN) {
    shard *own = (shard *)at;
    found out = { 0, 0, 0 };
    wormweekly_prepared prepared;
    out.answer = wormweekly_prepare(own->recorder, own->number, texts, length, attributes, count, &prepared);
    if (out.answer == WORMWEEKLY_DONE) {
        memcpy(&out.low, prepared.set, sizeof out.low);
        memcpy(&out.high, prepared.set + 4, sizeof out.high);
    }
    give_back(taken);
    return out;
}

uint32_t explain_by(uint8_t *at, uint32_t *taken, GIVEN, int64_t value, uint8_t *out, size_t room, size_t *written) {
    shard *own = (shard *)at;
    uint32_t answer =
        wormweekly_explain(own->recorder, own->number, texts, length, attributes, count, value, out, room, written);
    give_back(taken);
    return answer;
}

uint32_t expect_by(uint8_t *at, uint32_t *taken, uint32_t kind, GIVEN, uint32_t optional, uint8_t *fault, size_t room,
                   size_t *written) {
    shard *own = (shard *)at;
    uint32_t answer = wormweekly_expect(own->recorder, own->number, kind, texts, length, attributes, count, optional, fault,
                                        room, written);
    give_back(taken);
    return answer;
}
