/* What this package keeps in C beside the handles of a run.
 *
 * Whoever calls has taken a recorder, by a number in memory of Go. The call takes the instrument, and gives back both
 * before it returns: a goroutine that comes back from C may have to wait until it is run again, and nobody waits for it
 * meanwhile. Where `taken` is null, the recorder stays taken.
 */
#ifndef SHARDS_H
#define SHARDS_H

#include <semaphore.h>
#include <stddef.h>
#include <stdint.h>

#include "wormweekly.h"

enum { FEW_ATTRIBUTES = 8, FEW_BYTES = 512, MOST_ATTRIBUTES = 65, MOST_KEPT = 64 };

/* Room for the attributes of a call, of each recorder. */
typedef struct {
    uint8_t texts[FEW_BYTES];
    wormweekly_attribute attributes[FEW_ATTRIBUTES];
} few_attributes;

/* An instrument is taken by one thread at a time. Under that is counted how often one waited, and the longest wait, in
   nanoseconds. */
typedef struct {
    wormweekly_instrument *instrument;
    sem_t free;
    uint64_t waits, longest;
} guarded;

/* A recorder at work on an instrument: its bit among the recorders, and how many recordings count out what is under
   way. */
typedef struct {
    guarded *on;
    wormweekly_recorder *recorder;
    uint64_t bit, under_way;
    uint32_t number;
} shard;

/* Recordings that a recorder is still to make on an instrument, and how many more may be kept. In memory of Go. */
typedef struct {
    wormweekly_prepared list[MOST_KEPT];
    uint64_t length, left;
} kept;

/* Where a call is at work, as bytes: cgo looks through what may have pointers into memory of Go. What is kept may be
   null. `spent` has the bits of the recorders that had no budget left. */
#define PLACE uint8_t *at, uint8_t *list, uint32_t *taken
#define GIVEN const uint8_t *texts, size_t length, const wormweekly_attribute *attributes, size_t count

/* Attributes that were looked up. */
typedef struct {
    uint32_t answer;
    uint64_t low, high;
} found;

/* Whether a recording is kept or refused; else nothing was done. */
typedef struct {
    uint32_t answer, is_done;
} keeping;

typedef struct {
    uint32_t answer;
    size_t made;
} listed;

void fill_shards(shard *shards, guarded *guards, wormweekly_instrument *instruments, wormweekly_recorder *recorders,
                 const wormweekly_counts *counts);
void free_shards(shard *shards, guarded *guards, const wormweekly_counts *counts);

/* Recordings. What is kept is made before. */
uint32_t record_set(PLACE, uint64_t *spent, uint64_t low, uint64_t high, int64_t value);
uint32_t record_given(PLACE, uint64_t *spent, GIVEN, int64_t value);
listed record_list(PLACE, const wormweekly_prepared *all, size_t length);
uint32_t count_in(PLACE, uint64_t *spent, uint64_t low, uint64_t high);
uint32_t count_out(PLACE, uint64_t *spent, uint64_t low, uint64_t high);

/* Keeps one. Where there is no place for it, what is kept is made before, and the budget looked at: so it is in the
   first call alone, which answers whether there is place now. */
uint32_t make_place(PLACE);
keeping keep_given(PLACE, GIVEN, int64_t value);

/* Makes what is kept. Where the instrument is to be closed, nothing may be kept after it. */
uint32_t make_kept(PLACE, int closes);

uint32_t ask_by(PLACE, uint64_t *spent, uint64_t amount);
/* A part of what is spare, so that something is left for the other recorders. */
uint32_t ask_part(PLACE, uint64_t *spent, size_t recorders);
uint32_t budget_by(PLACE, wormweekly_budget_out *budget);

/* By a recorder alone. */
found prepare_by(uint8_t *at, uint32_t *taken, GIVEN);
uint32_t explain_by(uint8_t *at, uint32_t *taken, GIVEN, int64_t value, uint8_t *out, size_t room, size_t *written);
uint32_t expect_by(uint8_t *at, uint32_t *taken, uint32_t kind, GIVEN, uint32_t optional, uint8_t *fault, size_t room,
                   size_t *written);

/* By an instrument alone. */
uint32_t grant_on(guarded *on, uint64_t *spent, uint32_t recorder, uint64_t amount);
uint32_t spare_on(guarded *on, wormweekly_spare_out *spare);
uint32_t close_on(guarded *on);
uint32_t collect_on(guarded *on, wormweekly_reader *reader, uint64_t now, int keeps);
uint32_t settle_on(guarded *on, wormweekly_recorder *recorders, size_t count, wormweekly_total *total);
void waits_on(guarded *on, uint64_t *waits, uint64_t *longest);

#endif
