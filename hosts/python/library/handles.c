/* The handles of a run: every handle of the package, and each length of a list of them, is in this file. */
#include "handles.h"

#include <Python.h>
#include <errno.h>
#include <stdlib.h>
#include <string.h>

static _Atomic unsigned long forks;
static pthread_once_t forks_are_counted = PTHREAD_ONCE_INIT;

static void count_fork(void) { atomic_fetch_add(&forks, 1); }

static void count_forks(void) { pthread_atfork(NULL, NULL, count_fork); }

int handles_are_whole(const Handles *own) {
    return own->born == atomic_load_explicit(&forks, memory_order_relaxed);
}

int handles_lock(pthread_mutex_t *mutex) {
    int answer = pthread_mutex_trylock(mutex);
    if (answer == EBUSY) {
        Py_BEGIN_ALLOW_THREADS
        answer = pthread_mutex_lock(mutex);
        Py_END_ALLOW_THREADS
    }
    return answer;
}

static void unlock(pthread_mutex_t *mutex) { pthread_mutex_unlock(mutex); }

/* Opening and freeing */

static pthread_mutex_t *new_locks(size_t count, int kind) {
    pthread_mutexattr_t how;
    pthread_mutex_t *made = calloc(count + 1, sizeof *made);
    if (made == NULL) {
        return NULL;
    }
    pthread_mutexattr_init(&how);
    pthread_mutexattr_settype(&how, kind);
    for (size_t at = 0; at < count; at++) {
        pthread_mutex_init(&made[at], &how);
    }
    pthread_mutexattr_destroy(&how);
    return made;
}

/* Makes room for as many as there are. */
static int make_room(Lists *lists) {
    const wormweekly_counts *counts = &lists->counts;
    lists->instruments = calloc(counts->instruments + 1, sizeof *lists->instruments);
    lists->recorders = calloc(counts->recorders + 1, sizeof *lists->recorders);
    lists->readers = calloc(counts->readers + 1, sizeof *lists->readers);
    return lists->instruments && lists->recorders && lists->readers;
}

static void free_lists(Lists *lists) {
    free(lists->instruments);
    free(lists->recorders);
    free(lists->readers);
    *lists = (Lists){ 0 };
}

static void free_handles(Lists *lists) {
    for (size_t at = 0; lists->instruments != NULL && at < lists->counts.instruments; at++) {
        wormweekly_free_instrument(&lists->instruments[at]);
    }
    for (size_t at = 0; lists->recorders != NULL && at < lists->counts.recorders; at++) {
        wormweekly_free_recorder(&lists->recorders[at]);
    }
    for (size_t at = 0; lists->readers != NULL && at < lists->counts.readers; at++) {
        wormweekly_free_reader(&lists->readers[at]);
    }
}

static const uint8_t *bytes_of(const Text *text) { return (const uint8_t *)text->bytes; }

typedef struct {
    uint8_t *out;
    size_t room, *length;
} Fault;

static uint32_t open_room(Lists *lists, const Texts *texts, wormweekly_counts *wanted, const Fault *fault) {
    const wormweekly_counts has = lists->counts;
    const Text *catalogue = &texts->catalogue, *config = &texts->config, *certificate = &texts->certificate;
    if (certificate->bytes != NULL) {
        return wormweekly_open_certified(
            bytes_of(catalogue), (size_t)catalogue->length, bytes_of(config), (size_t)config->length,
            bytes_of(certificate), (size_t)certificate->length, texts->start, lists->instruments, has.instruments,
            lists->recorders, has.recorders, lists->readers, has.readers, wanted, fault->out, fault->room,
            fault->length);
    }
    return wormweekly_open(bytes_of(catalogue), (size_t)catalogue->length, bytes_of(config), (size_t)config->length,
                           texts->start, lists->instruments, has.instruments, lists->recorders, has.recorders,
                           lists->readers, has.readers, wanted, fault->out, fault->room, fault->length);
}

/* The first call has no room, and is told how much there has to be. */
static uint32_t open_lists(Lists *lists, const Texts *texts, const Fault *fault) {
    uint32_t answer = WORMWEEKLY_TOO_SHORT;
    wormweekly_counts wanted = { 0 };
    for (int tries = 0; answer == WORMWEEKLY_TOO_SHORT && tries < 2; tries++) {
        free_lists(lists);
        lists->counts = wanted;
        answer = make_room(lists) ? open_room(lists, texts, &wanted, fault) : WORMWEEKLY_MEMORY;
    }
    return answer;
}

/* Makes what stands beside the handles of a run. */
static int has_locks(Handles *own) {
    const wormweekly_counts *counts = &own->lists.counts;
    own->instrument_locks = new_locks(counts->instruments, PTHREAD_MUTEX_DEFAULT);
    own->recorder_locks = new_locks(counts->recorders, PTHREAD_MUTEX_DEFAULT);
    own->reader_locks = new_locks(counts->readers, PTHREAD_MUTEX_ERRORCHECK);
    own->spent = calloc(counts->instruments + 1, sizeof *own->spent);
    own->kept = calloc(counts->instruments * counts->recorders + 1, sizeof *own->kept);
    return own->instrument_locks && own->recorder_locks && own->reader_locks && own->spent && own->kept;
}

uint32_t handles_open(Handles *own, const Texts *texts, uint8_t *fault, size_t room, size_t *length) {
    const Fault told = { fault, room, length };
    uint32_t answer;
    pthread_once(&forks_are_counted, count_forks);
    own->born = atomic_load(&forks);
    answer = open_lists(&own->lists, texts, &told);
    if (answer != WORMWEEKLY_DONE) {
        return answer;
    }
    return has_locks(own) ? WORMWEEKLY_DONE : WORMWEEKLY_MEMORY;
}

uint32_t handles_open_anew(Handles *own, const Texts *texts, uint8_t *fault, size_t room, size_t *length) {
    Handles made = { .runs = own->runs + 1 };
    uint32_t answer = handles_open(&made, texts, fault, room, length);
    if (answer == WORMWEEKLY_DONE) {
        *own = made;
    } else {
        handles_free(&made);
    }
    return answer;
}

void handles_free(Handles *own) {
    if (handles_are_whole(own)) {
        free_handles(&own->lists);
    }
    free_lists(&own->lists);
    free(own->instrument_locks);
    free(own->recorder_locks);
    free(own->reader_locks);
    free(own->spent);
    free(own->kept);
}

/* The end of a run */

static void lock_all(pthread_mutex_t *locks, size_t count) {
    for (size_t at = 0; at < count; at++) {
        pthread_mutex_lock(&locks[at]);
    }
}

static void unlock_all(pthread_mutex_t *locks, size_t count) {
    for (size_t at = count; at > 0; at--) {
        unlock(&locks[at - 1]);
    }
}

uint32_t handles_settle(Handles *own, size_t instrument, wormweekly_total *total) {
    Lists *lists = &own->lists;
    uint32_t answer;
    lock_all(own->recorder_locks, lists->counts.recorders);
    pthread_mutex_lock(&own->instrument_locks[instrument]);
    answer = wormweekly_settle(&lists->instruments[instrument], lists->recorders, lists->counts.recorders, total);
    unlock(&own->instrument_locks[instrument]);
    unlock_all(own->recorder_locks, lists->counts.recorders);
    return answer;
}

/* Opens the next run of the plan, by its first recorder, in room for as much as there is of this one. */
static uint32_t open_next(Handles *own, uint64_t start, Lists *next) {
    wormweekly_counts counts;
    uint32_t answer;
    next->counts = own->lists.counts;
    if (next->counts.recorders == 0) {
        return WORMWEEKLY_UNKNOWN_RECORDER;
    }
    if (!make_room(next)) {
        return WORMWEEKLY_MEMORY;
    }
    pthread_mutex_lock(&own->recorder_locks[0]);
    answer = wormweekly_next(&own->lists.recorders[0], start, next->instruments, next->counts.instruments,
                             next->recorders, next->counts.recorders, next->readers, next->counts.readers, &counts);
    unlock(&own->recorder_locks[0]);
    return answer;
}

/* Where all of a run is settled, it changes places with the next one. */
static uint32_t change(Handles *own, Handles *next, wormweekly_total *totals) {
    const wormweekly_counts counts = own->lists.counts;
    const Lists before = own->lists;
    for (size_t at = 0; at < counts.instruments; at++) {
        uint32_t answer = wormweekly_settle(&before.instruments[at], before.recorders, counts.recorders, &totals[at]);
        if (answer != WORMWEEKLY_DONE) {
            return answer;
        }
    }
    own->lists = next->lists;
    next->lists = before;
    own->runs++;
    for (size_t at = 0; at < counts.instruments; at++) {
        own->spent[at] = 0;
    }
    memset(own->kept, 0, counts.instruments * counts.recorders * sizeof *own->kept);
    return WORMWEEKLY_DONE;
}

/* Locks all readers, but where this very thread has one, none. */
static int lock_readers(Handles *own) {
    for (size_t at = 0; at < own->lists.counts.readers; at++) {
        if (pthread_mutex_lock(&own->reader_locks[at]) == EDEADLK) {
            unlock_all(own->reader_locks, at);
            return 0;
        }
    }
    return 1;
}

/* All memory is taken before recordings wait. */
uint32_t handles_roll_over(Handles *own, uint64_t start, wormweekly_total *totals, Handles *ended) {
    const wormweekly_counts counts = own->lists.counts;
    uint32_t answer;
    ended->born = own->born;
    if (!lock_readers(own)) {
        return HANDLES_IN_USE;
    }
    answer = open_next(own, start, &ended->lists);
    if (answer == WORMWEEKLY_DONE && !has_locks(ended)) {
        answer = WORMWEEKLY_MEMORY;
    }
    if (answer == WORMWEEKLY_DONE) {
        lock_all(own->recorder_locks, counts.recorders);
        lock_all(own->instrument_locks, counts.instruments);
        answer = change(own, ended, totals);
        unlock_all(own->instrument_locks, counts.instruments);
        unlock_all(own->recorder_locks, counts.recorders);
    }
    unlock_all(own->reader_locks, counts.readers);
    for (size_t at = 0; answer == WORMWEEKLY_DONE && at < counts.instruments; at++) {
        wormweekly_close(&ended->lists.instruments[at]); /* one that is closed stays closed */
    }
    return answer;
}

/* Recordings */

static wormweekly_instrument *begin(const Work *work, wormweekly_recorder **recorder) {
    handles_lock(&work->own->recorder_locks[work->recorder]);
    handles_lock(&work->of->instrument_locks[work->instrument]);
    *recorder = &work->own->lists.recorders[work->recorder];
    return &work->of->lists.instruments[work->instrument];
}

static void end(const Work *work) {
    unlock(&work->of->instrument_locks[work->instrument]);
    unlock(&work->own->recorder_locks[work->recorder]);
}

uint32_t handles_record(const Work *work, const Attributes *given, int64_t value) {
    wormweekly_recorder *recorder;
    wormweekly_instrument *instrument = begin(work, &recorder);
    uint32_t answer =
        wormweekly_record(instrument, recorder, given->bytes, given->length, given->all, given->count, value);
    end(work);
    return answer;
}

uint32_t handles_add(const Work *work, const wormweekly_prepared *prepared) {
    wormweekly_recorder *recorder;
    wormweekly_instrument *instrument = begin(work, &recorder);
    uint32_t answer = wormweekly_record_prepared(instrument, recorder, prepared);
    end(work);
    return answer;
}

uint32_t handles_add_all(const Work *work, const wormweekly_prepared *list, size_t length, size_t *made) {
    wormweekly_recorder *recorder;
    wormweekly_instrument *instrument = begin(work, &recorder);
    uint32_t answer = wormweekly_record_list(instrument, recorder, list, length, made);
    end(work);
    return answer;
}

uint32_t handles_budget(const Work *work, wormweekly_budget_out *budget) {
    wormweekly_recorder *recorder;
    wormweekly_instrument *instrument = begin(work, &recorder);
    uint32_t answer = wormweekly_budget(instrument, recorder, budget);
    end(work);
    return answer;
}

uint32_t handles_ask(const Work *work, uint64_t amount) {
    wormweekly_recorder *recorder;
    wormweekly_instrument *instrument = begin(work, &recorder);
    uint32_t answer = wormweekly_ask(instrument, recorder, amount);
    if (answer == WORMWEEKLY_DONE) {
        work->of->spent[work->instrument] = 0;
    }
    end(work);
    return answer;
}

/* Recorders and readers alone */

wormweekly_recorder *handles_lend_recorder(Handles *own, size_t recorder) {
    handles_lock(&own->recorder_locks[recorder]);
    return &own->lists.recorders[recorder];
}

void handles_take_recorder(Handles *own, size_t recorder) { unlock(&own->recorder_locks[recorder]); }

wormweekly_reader *handles_lend_reader(Handles *own, size_t reader) {
    return handles_lock(&own->reader_locks[reader]) == EDEADLK ? NULL : &own->lists.readers[reader];
}

void handles_take_reader(Handles *own, size_t reader) { unlock(&own->reader_locks[reader]); }

uint32_t handles_prepare(Handles *own, size_t instrument, const Attributes *given, wormweekly_prepared *prepared) {
    size_t at = 0;
    uint32_t answer;
    if (own->lists.counts.recorders == 0) {
        return WORMWEEKLY_UNKNOWN_RECORDER;
    }
    while (at < own->lists.counts.recorders && pthread_mutex_trylock(&own->recorder_locks[at]) != 0) {
        at++;
    }
    if (at == own->lists.counts.recorders) {
        at = 0;
        handles_lock(&own->recorder_locks[at]);
    }
    answer = wormweekly_prepare(&own->lists.recorders[at], (uint32_t)instrument, given->bytes, given->length,
                                given->all, given->count, prepared);
    unlock(&own->recorder_locks[at]);
    return answer;
}

/* Instruments alone */

uint32_t handles_grant(Handles *own, size_t instrument, size_t recorder, uint64_t amount) {
    uint32_t answer;
    handles_lock(&own->instrument_locks[instrument]);
    answer = wormweekly_grant(&own->lists.instruments[instrument], (uint32_t)recorder, amount);
    if (answer == WORMWEEKLY_DONE) {
        own->spent[instrument] = 0;
    }
    unlock(&own->instrument_locks[instrument]);
    return answer;
}

uint32_t handles_spare(Handles *own, size_t instrument, wormweekly_spare_out *spare) {
    uint32_t answer;
    handles_lock(&own->instrument_locks[instrument]);
    answer = wormweekly_spare(&own->lists.instruments[instrument], spare);
    unlock(&own->instrument_locks[instrument]);
    return answer;
}

uint32_t handles_close(Handles *own, size_t instrument) {
    uint32_t answer;
    handles_lock(&own->instrument_locks[instrument]);
    answer = wormweekly_close(&own->lists.instruments[instrument]);
    unlock(&own->instrument_locks[instrument]);
    return answer;
}

uint32_t handles_collect(Handles *of, size_t instrument, wormweekly_reader *reader, uint64_t now, int keeps) {
    wormweekly_instrument *held = &of->lists.instruments[instrument];
    uint32_t answer;
    pthread_mutex_lock(&of->instrument_locks[instrument]);
    answer = keeps ? wormweekly_collect_also(held, reader, now) : wormweekly_collect(held, reader, now);
    unlock(&of->instrument_locks[instrument]);
    return answer;
}
