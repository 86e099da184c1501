/* The handles of a run, with a mutex beside each.
 *
 * Each call takes the numbers of what it is for, and asks nothing of Python but its lock: nothing waits for a mutex
 * while it holds that one. Mutexes are taken in one order: a reader's, those of recorders by number, an instrument's.
 * The mutex of a reader knows its thread: objects of a batch are made under it, and what they set off may ask again.
 */
#ifndef HANDLES_H
#define HANDLES_H

#include <pthread.h>
#include <stdatomic.h>
#include <stddef.h>
#include <stdint.h>

#include "wormweekly.h"

/* This very thread has a reader. The number is none of the library's. */
enum { HANDLES_IN_USE = 1003 };

typedef struct {
    const char *bytes;
    ptrdiff_t length;
} Text;

/* What a run is opened of. The certificate may be null. */
typedef struct {
    Text catalogue, config, certificate;
    uint64_t start;
} Texts;

/* Lists of handles, each with room for one more, so that none is null. */
typedef struct {
    wormweekly_counts counts;
    wormweekly_instrument *instruments;
    wormweekly_recorder *recorders;
    wormweekly_reader *readers;
} Lists;

typedef struct {
    unsigned long born; /* how often the process was forked before */
    unsigned long runs; /* how many ended in the place of which this one is */
    Lists lists;
    pthread_mutex_t *instrument_locks, *recorder_locks, *reader_locks;
    /* of each instrument, the recorders that had no budget left, a bit for each; under its mutex */
    _Atomic uint64_t *spent;
    /* of each recorder, how many recordings of each instrument count out what is under way; under its mutex */
    uint64_t *kept;
} Handles;

/* Attributes as the library takes them. */
typedef struct {
    const uint8_t *bytes;
    size_t length;
    const wormweekly_attribute *all;
    size_t count;
} Attributes;

/* A recorder of some run at work on an instrument of another, or of the same. */
typedef struct {
    Handles *own;
    size_t recorder;
    Handles *of;
    size_t instrument;
} Work;

/* What was counted in by a recorder, while so many runs had ended. */
typedef struct {
    size_t recorder;
    unsigned long run;
} Place;

/* What any recorder may record: attributes or, where these are null, a set that was prepared, and a value. What is
   counted in gets its place. */
typedef struct {
    const Attributes *given;
    wormweekly_prepared prepared;
    int is_counted_in;
    Place place;
} Recording;

/* Locks, and lets other threads of Python go on as long as that takes. */
int handles_lock(pthread_mutex_t *mutex);

/* Opens a run. It is called once, without Python's lock, on what is all zero. */
uint32_t handles_open(Handles *own, const Texts *texts, uint8_t *fault, size_t room, size_t *length);

/* In the child of a fork: opens the run anew, in the place of one that the parent opened, whose handles are left as
 * they are, since a thread that is not there may have been in the middle of them. Refused, all is as before. */
uint32_t handles_open_anew(Handles *own, const Texts *texts, uint8_t *fault, size_t room, size_t *length);

/* Ends the run and begins the next one in its place, without Python's lock. Writes the total of each instrument. What
 * has ended, with all instruments closed, takes the place of what is all zero. Refused, all is as before. */
uint32_t handles_roll_over(Handles *own, uint64_t start, wormweekly_total *totals, Handles *ended);

/* Frees them, but not in the child of a fork: a thread that is not there may have been in the middle of it. */
void handles_free(Handles *own);

/* Whether the process is the one that opened them. */
int handles_are_whole(const Handles *own);

uint32_t handles_record(const Work *work, const Attributes *given, int64_t value);
uint32_t handles_add(const Work *work, const wormweekly_prepared *prepared);
uint32_t handles_add_all(const Work *work, const wormweekly_prepared *list, size_t length, size_t *made);
uint32_t handles_budget(const Work *work, wormweekly_budget_out *budget);
uint32_t handles_ask(const Work *work, uint64_t amount);

/* Makes a recording with a recorder that is free and has budget left. Where all with budget are busy, it waits for one
   of them; where none has budget left, one asks the spare budget. */
uint32_t handles_record_shared(Handles *own, size_t instrument, Recording *what);
uint32_t handles_count_out(Handles *own, size_t instrument, const wormweekly_prepared *prepared, const Place *place);

/* Finds a set key, by a recorder that nobody uses, or else the first. */
uint32_t handles_prepare(Handles *own, size_t instrument, const Attributes *given, wormweekly_prepared *prepared);
uint32_t handles_spare(Handles *own, size_t instrument, wormweekly_spare_out *spare);
uint32_t handles_grant(Handles *own, size_t instrument, size_t recorder, uint64_t amount);
uint32_t handles_close(Handles *own, size_t instrument);

/* Compares an instrument with what all recorders were told. It is called without Python's lock. */
uint32_t handles_settle(Handles *own, size_t instrument, wormweekly_total *total);

/* A recorder or a reader for one thread, until it is given back. Where this very thread has the reader, it is null. */
wormweekly_recorder *handles_lend_recorder(Handles *own, size_t recorder);
void handles_take_recorder(Handles *own, size_t recorder);
wormweekly_reader *handles_lend_reader(Handles *own, size_t reader);
void handles_take_reader(Handles *own, size_t reader);

/* Collects with a reader that was lent. It is called without Python's lock. */
uint32_t handles_collect(Handles *of, size_t instrument, wormweekly_reader *reader, uint64_t now, int keeps);

#endif
