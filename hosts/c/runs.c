/* The start of a run: each run of a process has a number of its own, so that no two mix. This and calls.c are all of
 * the library that is not proved: a number is drawn, and the proved call opens the run of that number.
 */
#include "wormweekly.h"

#include <stdatomic.h>

/* The proved calls. */
uint32_t wormweekly_open_run(const uint8_t *catalogue, size_t catalogue_length, const uint8_t *config,
                             size_t config_length, uint64_t start, uint64_t run, wormweekly_instrument *instruments,
                             size_t instruments_length, wormweekly_recorder *recorders, size_t recorders_length,
                             wormweekly_reader *readers, size_t readers_length, wormweekly_counts *counts,
                             uint8_t *fault, size_t fault_room, size_t *fault_length);
uint32_t wormweekly_open_certified_run(const uint8_t *catalogue, size_t catalogue_length, const uint8_t *config,
                                       size_t config_length, const uint8_t *certificate, size_t certificate_length,
                                       uint64_t start, uint64_t run, wormweekly_instrument *instruments,
                                       size_t instruments_length, wormweekly_recorder *recorders,
                                       size_t recorders_length, wormweekly_reader *readers, size_t readers_length,
                                       wormweekly_counts *counts, uint8_t *fault, size_t fault_room,
                                       size_t *fault_length);
uint32_t wormweekly_next_run(wormweekly_recorder *recorder, uint64_t start, uint64_t run,
                             wormweekly_instrument *instruments, size_t instruments_length,
                             wormweekly_recorder *recorders, size_t recorders_length, wormweekly_reader *readers,
                             size_t readers_length, wormweekly_counts *counts);

/* 1, 2, 3 and so on, each once in a process. */
static uint64_t new_number(void) {
    static _Atomic uint64_t last;
    return atomic_fetch_add(&last, 1) + 1;
}

uint32_t wormweekly_open(const uint8_t *catalogue, size_t catalogue_length, const uint8_t *config, size_t config_length,
                         uint64_t start, wormweekly_instrument *instruments, size_t instruments_length,
                         wormweekly_recorder *recorders, size_t recorders_length, wormweekly_reader *readers,
                         size_t readers_length, wormweekly_counts *counts, uint8_t *fault, size_t fault_room,
                         size_t *fault_length) {
    return wormweekly_open_run(catalogue, catalogue_length, config, config_length, start, new_number(), instruments,
                               instruments_length, recorders, recorders_length, readers, readers_length, counts, fault,
                               fault_room, fault_length);
}

uint32_t wormweekly_open_certified(const uint8_t *catalogue, size_t catalogue_length, const uint8_t *config,
                                   size_t config_length, const uint8_t *certificate, size_t certificate_length,
                                   uint64_t start, wormweekly_instrument *instruments, size_t instruments_length,
                                   wormweekly_recorder *recorders, size_t recorders_length, wormweekly_reader *readers,
                                   size_t readers_length, wormweekly_counts *counts, uint8_t *fault, size_t fault_room,
                                   size_t *fault_length) {
    return wormweekly_open_certified_run(catalogue, catalogue_length, config, config_length, certificate,
                                         certificate_length, start, new_number(), instruments, instruments_length,
                                         recorders, recorders_length, readers, readers_length, counts, fault,
                                         fault_room, fault_length);
}

uint32_t wormweekly_next(wormweekly_recorder *recorder, uint64_t start, wormweekly_instrument *instruments,
                         size_t instruments_length, wormweekly_recorder *recorders, size_t recorders_length,
                         wormweekly_reader *readers, size_t readers_length, wormweekly_counts *counts) {
    return wormweekly_next_run(recorder, start, new_number(), instruments, instruments_length, recorders,
                               recorders_length, readers, readers_length, counts);
}
