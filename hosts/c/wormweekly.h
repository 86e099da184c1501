/* Wormweekly for C: the instruments of a certified plan.
 *
 * A catalogue declares what may ever be recorded, a config the readers and views (both as TOML; docs/FORMATS.md of the
 * repository has their formats). wormweekly_open reads both, makes a certificate that nothing can overflow, checks it,
 * and fills three lists of handles: one for each instrument, each recorder and each reader that they declare, in their
 * order.
 *
 * HANDLES
 *
 * A handle is a struct of one pointer. It is null (WORMWEEKLY_NOTHING), or as a call of this header left it. Never copy
 * one, never write one, and give it to one call at a time:
 *
 *   - an instrument is shared by threads: keep a mutex for each, and make each call with it under that mutex;
 *   - a recorder belongs to the thread that records with it, a reader to the one that collects with it. They may be
 *     moved to another thread, by what orders memory (a mutex, a thread's start or join).
 *
 * Each kind is freed by its own call, which leaves it null. Freeing null does nothing. No order is asked for. A handle
 * of another kind than a call asks for, as a cast may pass one, is answered as a null one, and freed as its own.
 *
 * TEXTS AND LISTS
 *
 * A text is a pointer and a length in bytes, in UTF-8, without an end mark. A list is a pointer and how many elements
 * it has. Where there are none, the pointer is not read: NULL and 0 ask for the length of a text, or for how many
 * handles there are to be. Buffers do not overlap.
 *
 * ANSWERS
 *
 * Each call answers a number: 0 where it was done, else why not. What is refused has changed nothing that a handle
 * holds, and no buffer, unless the call says so.
 *
 * ATTRIBUTES
 *
 * The keys and texts of all attributes of a call stand one after the other in one buffer, and beside it a list of
 * wormweekly_attribute says how long each is. So {"country" = "de", "paid" = yes} is the text "countrydepaid" with the
 * list { { 7, WORMWEEKLY_TEXT, 2, 0 }, { 4, WORMWEEKLY_YES, 0, 0 } }. Up to eight attributes take no memory. Of the
 * attributes of a recording the first 65 are looked at: an instrument has at most 8 keys, so of 65 a key stands twice
 * or is not declared, and the recording is refused for that. Any order will do; that of the catalogue's keys is found
 * fastest. Who records one set of attributes often prepares its set key once. Where threads share an instrument, find
 * the attributes before its mutex is taken, by wormweekly_prepare, and make the recording under it, by
 * wormweekly_record_prepared: so the others wait for less.
 *
 * WHAT A HOST OWES, AND NOTHING CHECKS
 *
 *   1. A handle is null or as the library left it, never copied or written, and in one call at a time: an instrument
 *      under a mutex of its own, a recorder or a reader on the thread that has it.
 *   2. Pointers and lengths are those of memory that the host owns, and buffers do not overlap.
 *   3. The declarations are those of the header of the library's version.
 *   4. malloc, realloc and free are of one allocator, which aligns a block to each power of two up to 16 that divides
 *      its size.
 *   5. No call is made from a signal handler, or from the forked child of a process with threads.
 *
 * The library keeps no state but what handles hold, starts no thread and takes no lock.
 *
 * LINK
 *
 *   cc host.c libwormweekly.a -lpthread
 */
#ifndef WORMWEEKLY_H
#define WORMWEEKLY_H

#include <stddef.h>
#include <stdint.h>

/* The version of this header and of the library. */
#define WORMWEEKLY_VERSION "0.4.0"

#ifdef __cplusplus
extern "C" {
#endif

/* The version of the library, which a program compares with that of its header: until 1.0 another minor version may
 * have changed calls. */
const char *wormweekly_version(void);

typedef struct { void *at; } wormweekly_instrument;
typedef struct { void *at; } wormweekly_recorder;
typedef struct { void *at; } wormweekly_reader;

/* The null of each kind of handle, as an initializer. */
#define WORMWEEKLY_NOTHING { NULL }

enum wormweekly_answer {
    WORMWEEKLY_DONE = 0,
    /* The instrument is none of the recorder's or reader's plan. */
    WORMWEEKLY_UNKNOWN_INSTRUMENT = 1,
    /* The instrument has no recorder of this number. */
    WORMWEEKLY_UNKNOWN_RECORDER = 2,
    /* An attribute's key stands twice; is not declared; has a value that is not declared; is missing. */
    WORMWEEKLY_DUPLICATE_KEY = 3,
    WORMWEEKLY_UNKNOWN_KEY = 4,
    WORMWEEKLY_UNKNOWN_VALUE = 5,
    WORMWEEKLY_MISSING_KEY = 6,
    /* The instrument does not allow this combination of values. */
    WORMWEEKLY_COMBINATION = 13,
    /* The value is outside the instrument's range. */
    WORMWEEKLY_VALUE_RANGE = 7,
    /* The instrument is closed. */
    WORMWEEKLY_CLOSED = 8,
    /* The recorder has made as many recordings on the instrument as its budget and what it was granted. */
    WORMWEEKLY_BUDGET = 9,
    /* Less is left of the instrument's spare budget than a grant asks for. */
    WORMWEEKLY_NO_SPARE = 14,
    /* Out of memory. */
    WORMWEEKLY_MEMORY = 11,
    /* The recorder or reader is of another run, or does not agree with what the instrument has counted. */
    WORMWEEKLY_STRANGER = 12,
    /* A handle is null, or is of another kind than the call asks for. */
    WORMWEEKLY_NOT_OPEN = 100,
    /* Bytes are no UTF-8, a length leads past the texts, or an attribute is of no kind. */
    WORMWEEKLY_NO_TEXT = 101,
    /* A buffer, or a list of handles, is too short. */
    WORMWEEKLY_TOO_SHORT = 102,
    /* The catalogue or the config is at fault, or the two are not safe together. */
    WORMWEEKLY_FAULT = 103,
    /* The seat of some recorder is not among those that were given. */
    WORMWEEKLY_RECORDER_MISSING = 104,
    /* An instrument's state is not what its recorders were told. */
    WORMWEEKLY_AUDIT_MISMATCH = 105,
    /* There is nothing of this number. */
    WORMWEEKLY_UNKNOWN = 106,
    /* A resource has more than 64 attributes. */
    WORMWEEKLY_TOO_MANY = 107,
    /* An attribute of a resource has an empty key. */
    WORMWEEKLY_EMPTY_KEY = 108,
    /* A handle that is to be filled holds something. */
    WORMWEEKLY_OPEN = 109,
    /* The key of an attribute of a resource has no letter and no digit, so that its label in a page says nothing. */
    WORMWEEKLY_BAD_LABEL = 110,
    /* Two attributes of a resource have one label in a page, as "a.b" and "a_b" have. */
    WORMWEEKLY_LABEL_COLLISION = 111
};

/* What kind of value an attribute has. */
enum wormweekly_kind { WORMWEEKLY_TEXT = 0, WORMWEEKLY_WHOLE = 1, WORMWEEKLY_NO = 2, WORMWEEKLY_YES = 3 };

/* An attribute: how long its key is; its kind; how long its text is (WORMWEEKLY_TEXT); its number
 * (WORMWEEKLY_WHOLE). */
typedef struct {
    size_t key;
    size_t kind;
    size_t text;
    int64_t whole;
} wormweekly_attribute;

/* An attribute by itself: its key, and its text, each with a 0 behind it; or a kind that is no text, and its number. So
 * { .key = "country", .text = "de" } is a text. */
typedef struct {
    const char *key;
    const char *text;
    size_t kind;
    int64_t whole;
} wormweekly_pair;

/* A recording of a set key, which wormweekly_prepare writes, or the host: for each key of the instrument, in its order,
 * 0 where the recording has no such key, else the number of its value, from 1; behind them 0. A set key that no
 * attributes come to is refused with 5, or with 13 where the instrument does not allow the combination. */
typedef struct {
    uint16_t set[8];
    int64_t value;
} wormweekly_prepared;

typedef struct {
    size_t instruments;
    size_t recorders;
    size_t readers;
} wormweekly_counts;

/* How many recordings a recorder may make on an instrument: as many as the catalogue declares, and those that were
 * granted; how many it has made, and how many are left. */
typedef struct {
    uint64_t declared;
    uint64_t granted;
    uint64_t spent;
    uint64_t left;
} wormweekly_budget_out;

/* How many recordings may be granted to the recorders of an instrument: as many as the catalogue declares as spare; how
 * many were granted, and how many are left. */
typedef struct {
    uint64_t declared;
    uint64_t granted;
    uint64_t left;
} wormweekly_spare_out;

/* The least and the greatest value that may be recorded on an instrument. */
typedef struct {
    int64_t least;
    int64_t greatest;
} wormweekly_range_out;

/* A stream of the plan: the numbers of its instrument and its reader; and, as below, the kind of the instrument, how
 * its points are made, and 1 where it is delta. */
typedef struct {
    uint64_t instrument;
    uint64_t reader;
    uint64_t kind;
    uint64_t aggregation;
    uint64_t delta;
} wormweekly_plan_stream_out;

/* How often an instrument may be recorded, all recorders together: as often as the catalogue declares, with what it
 * spares; the most that is safe while all else stays as it is; and what one more would break: a count (0), two sums
 * 2^64 apart (1), the least (2) or the greatest int64_t (3), or the series of a stream (4), whose number is in
 * `stream`. */
typedef struct {
    uint64_t declared;
    uint64_t most;
    uint64_t limit;
    uint64_t stream;
} wormweekly_headroom_out;

/* How many recordings, and their sum: high and low are the 128 bits of its size, negative is 1 where it is below 0. */
typedef struct {
    uint64_t count;
    uint64_t negative;
    uint64_t high;
    uint64_t low;
} wormweekly_total;

/* A batch as a whole: the number of its instrument, how many streams it has, from when to when it is, in
 * nanoseconds. */
typedef struct {
    uint64_t instrument;
    uint64_t streams;
    uint64_t start;
    uint64_t time;
} wormweekly_batch_out;

/* A stream of it: its number in the plan; the kind of its instrument (0 counter, 1 up-down counter, 2 histogram, 3
 * gauge); how its points are made (0 sum, 1 last value, 2 histogram); 1 where it is delta, 0 where it is cumulative. */
typedef struct {
    uint64_t number;
    uint64_t kind;
    uint64_t aggregation;
    uint64_t delta;
    uint64_t boundaries;
    uint64_t points;
} wormweekly_stream_out;

/* A point: its set key, as wormweekly_prepare writes one, and 1 where it is of a series, 0 where it is the overflow
 * point; the sum or the last value, and 1 where there is one; of a histogram how many values, the least and the
 * greatest. */
typedef struct {
    uint16_t set[8];
    uint64_t is_series;
    uint64_t count;
    uint64_t has_value;
    int64_t value;
    int64_t least;
    int64_t greatest;
    uint64_t buckets;
} wormweekly_point_out;

/* Opens a run since `start`, in nanoseconds. Runs of one process do not mix, whatever their start. Writes how many
 * handles of each kind there are to be; where a list has fewer (WORMWEEKLY_TOO_SHORT), nothing is opened, so ask with
 * empty lists first. The handles have to be null: where one of the lists holds something, nothing is opened or freed
 * (WORMWEEKLY_OPEN). A fault (WORMWEEKLY_FAULT) is told in `fault`, as far as there is room, with its whole length: one
 * line without an end, as `wormweekly lint` prints it,
 *
 *     catalogue:7:1: instrument 0 "orders": unknown kind "guage"; expected counter, up_down_counter, histogram or gauge; ..
 *
 * It begins with `catalogue`, `config` or `certificate`, then the line and the column of the field where they are
 * known, each behind a colon, then a colon and a blank. So much stays; the words after it may change with each
 * version. */
uint32_t wormweekly_open(const uint8_t *catalogue, size_t catalogue_length, const uint8_t *config, size_t config_length,
                         uint64_t start, wormweekly_instrument *instruments, size_t instruments_length,
                         wormweekly_recorder *recorders, size_t recorders_length, wormweekly_reader *readers,
                         size_t readers_length, wormweekly_counts *counts, uint8_t *fault, size_t fault_room,
                         size_t *fault_length);

/* The same of a certificate that somebody made (`metric_kit make` prints one), which is checked, whoever that was. */
uint32_t wormweekly_open_certified(const uint8_t *catalogue, size_t catalogue_length, const uint8_t *config,
                                   size_t config_length, const uint8_t *certificate, size_t certificate_length,
                                   uint64_t start, wormweekly_instrument *instruments, size_t instruments_length,
                                   wormweekly_recorder *recorders, size_t recorders_length, wormweekly_reader *readers,
                                   size_t readers_length, wormweekly_counts *counts, uint8_t *fault, size_t fault_room,
                                   size_t *fault_length);

/* Opens the next run of the plan that a recorder is of, since `start`, into other handles that are null, with full
 * budgets: so a service lives for ever on bounded budgets. Nothing is read or certified again. The run that is there
 * goes on: collect it a last time, close and settle its instruments, and free it. To a reader of cumulative streams
 * that is a restart. */
uint32_t wormweekly_next(wormweekly_recorder *recorder, uint64_t start, wormweekly_instrument *instruments,
                         size_t instruments_length, wormweekly_recorder *recorders, size_t recorders_length,
                         wormweekly_reader *readers, size_t readers_length, wormweekly_counts *counts);

/* Writes a line for each remark that `wormweekly lint` has on a catalogue and a config, as a key that nothing declares,
 * or budgets that are not safe; nothing where there is none. At most a hundred are written, and then how many more
 * there are. Each begins as a fault does. Where there is too little room, only the length is written. A fault of the
 * texts (WORMWEEKLY_FAULT) is written in their place, as far as there is room, with its whole length. Needs no
 * handle. */
uint32_t wormweekly_lint(const uint8_t *catalogue, size_t catalogue_length, const uint8_t *config, size_t config_length,
                         uint8_t *out, size_t room, size_t *text_length);

/* Makes a recording (under the instrument's mutex). */
uint32_t wormweekly_record(wormweekly_instrument *instrument, wormweekly_recorder *recorder, const uint8_t *texts,
                           size_t texts_length, const wormweekly_attribute *attributes, size_t attributes_length,
                           int64_t value);

/* The same of pairs. These are packed for it, so that it takes longer; texts of more than 1,024 bytes in all take
 * memory. */
uint32_t wormweekly_record_pairs(wormweekly_instrument *instrument, wormweekly_recorder *recorder,
                                 const wormweekly_pair *pairs, size_t pairs_length, int64_t value);

/* Finds the set key of attributes for the instrument of a number, counted from 0 as in the catalogue. Needs no
 * mutex. */
uint32_t wormweekly_prepare(wormweekly_recorder *recorder, uint32_t instrument, const uint8_t *texts, size_t texts_length,
                            const wormweekly_attribute *attributes, size_t attributes_length,
                            wormweekly_prepared *prepared);

/* The same of pairs. */
uint32_t wormweekly_prepare_pairs(wormweekly_recorder *recorder, uint32_t instrument, const wormweekly_pair *pairs,
                                  size_t pairs_length, wormweekly_prepared *prepared);

/* Writes what such a recording of a value is refused for, of what it says, as `orders: key "country" has no value
 * "uk"`: the name of the instrument, and the key, the value or the range of its first mistake. The words may change
 * with each version, and are cut after 400 characters. The text is empty where all that it says is in order, so that it
 * is refused for something else, if at all. Where there is too little room, only the length is written. Nothing is
 * recorded. Needs no mutex. */
uint32_t wormweekly_explain(wormweekly_recorder *recorder, uint32_t instrument, const uint8_t *texts, size_t texts_length,
                            const wormweekly_attribute *attributes, size_t attributes_length, int64_t value, uint8_t *out,
                            size_t room, size_t *text_length);

/* Whether the instrument of a number means what a host was made for. `texts` and `declared` are first the names of its
 * meter and its own, and its unit (three texts with keys of length 0), then for each key in order its values in order,
 * each with the key's name; bit i of `optional` says that key i may be left out. WORMWEEKLY_DONE exactly where these are
 * its meter, name, kind (0 counter, 1 up-down counter, 2 histogram, 3 gauge) and unit, these are its first keys, each
 * optional exactly where that is said, its values begin with these, and each further key may be left out. Else
 * WORMWEEKLY_FAULT, with one line in `fault` as far as there is room, with its whole length, as
 *
 *     shop/orders: key "country" has no value "uk" at place 2
 *
 * whose words may change with each version. WORMWEEKLY_UNKNOWN where there is no such number; WORMWEEKLY_NO_TEXT also
 * where the three texts are not there, or there is no such kind. Needs no mutex. */
uint32_t wormweekly_expect(wormweekly_recorder *recorder, uint32_t instrument, uint32_t kind, const uint8_t *texts,
                           size_t texts_length, const wormweekly_attribute *declared, size_t declared_length,
                           uint32_t optional, uint8_t *fault, size_t fault_room, size_t *fault_length);

/* Makes the recording of a prepared set key (under the instrument's mutex). */
uint32_t wormweekly_record_prepared(wormweekly_instrument *instrument, wormweekly_recorder *recorder,
                                    const wormweekly_prepared *prepared);

/* Makes several, one after the other, up to the first that is refused, and writes how many were made (under the
 * instrument's mutex). The answer is that of the one after them. */
uint32_t wormweekly_record_list(wormweekly_instrument *instrument, wormweekly_recorder *recorder,
                                const wormweekly_prepared *list, size_t list_length, size_t *made);

/* Collects an instrument at a time in nanoseconds (under its mutex). The reader keeps the batch in place of those that
 * it kept. A delta reader gets what was recorded since its last batch, a cumulative one since the start. */
uint32_t wormweekly_collect(wormweekly_instrument *instrument, wormweekly_reader *reader, uint64_t now);

/* The same; the reader keeps the batch behind those that it keeps, so that all of a collection are one message. */
uint32_t wormweekly_collect_also(wormweekly_instrument *instrument, wormweekly_reader *reader, uint64_t now);

/* Writes the text of the batches that the reader keeps, and its length. Where there is too little room, only the length
 * is written: ask again with more. The text is empty before a batch. Needs no mutex. */
uint32_t wormweekly_text(wormweekly_reader *reader, uint8_t *out, size_t room, size_t *text_length);

/* Writes those batches in the OpenTelemetry protocol (OTLP 1.x), with the attributes of the resource, which is what
 * produces the metrics, as {"service.name" = "shop"}: as a message ExportMetricsServiceRequest (json 0), which a
 * collector takes at /v1/metrics as application/x-protobuf, or as a line of JSON (1; WORMWEEKLY_UNKNOWN above), which
 * it takes as application/json. A resource has at most 64 attributes (WORMWEEKLY_TOO_MANY), none with an empty key
 * (WORMWEEKLY_EMPTY_KEY), and none twice (WORMWEEKLY_DUPLICATE_KEY). Nothing is written before a batch, and of
 * batches without points. Messages one after the other are one request; each line of JSON is a post of its own, since a
 * collector reads the first of several alone. Where a collector did not take a request, keep it and send it before the
 * next one: a delta reader does not give its window again. Needs no mutex. */
uint32_t wormweekly_otlp(wormweekly_reader *reader, uint32_t json, const uint8_t *texts, size_t texts_length,
                         const wormweekly_attribute *attributes, size_t attributes_length, uint8_t *out, size_t room,
                         size_t *text_length);

/* A PAGE FOR PROMETHEUS. `dialect` is the text format 0.0.4 (0), OpenMetrics 1.0 (1), or that with lines `_created` (2;
 * WORMWEEKLY_UNKNOWN above). A page is what wormweekly_prometheus_target writes of a resource, then what
 * wormweekly_prometheus writes once of all instruments, collected in order (wormweekly_collect_also), since the lines of
 * one family stand together, and in OpenMetrics the line "# EOF\n". None needs a mutex. */

/* Whether the streams of a reader can stand in a page: a server would hold each sample, and take none for another. A
 * fault (WORMWEEKLY_FAULT) is told in `fault`, as far as there is room, with its whole length. Ask before anything is
 * recorded. */
uint32_t wormweekly_expose(wormweekly_reader *reader, uint8_t *fault, size_t fault_room, size_t *fault_length);

/* Writes the lines of the batches that the reader keeps, none before one, and their length. Where there is too little
 * room, only the length is written. */
uint32_t wormweekly_prometheus(wormweekly_reader *reader, uint32_t dialect, uint8_t *out, size_t room,
                               size_t *text_length);

/* The same of a resource, whose attributes are checked as by wormweekly_otlp. One without attributes has no lines. In a
 * page each key is a label: one that says nothing (WORMWEEKLY_BAD_LABEL) and two that are the same
 * (WORMWEEKLY_LABEL_COLLISION) are refused. */
uint32_t wormweekly_prometheus_target(uint32_t dialect, const uint8_t *texts, size_t texts_length,
                                      const wormweekly_attribute *attributes, size_t attributes_length, uint8_t *out,
                                      size_t room, size_t *text_length);

/* Writes a whole page of instruments, collected at a time in nanoseconds by a cumulative reader, with the pairs of a
 * resource. Where `hold` is not NULL, it is called with `host` and the number of an instrument before that is collected
 * (1) and after (0): lock its mutex, and unlock it. Where there is too little room, the length is written, and what is
 * in the buffer is no page. */
typedef void (*wormweekly_hold)(void *host, size_t instrument, int is_held);
uint32_t wormweekly_page(wormweekly_instrument *instruments, size_t instruments_length, wormweekly_reader *reader,
                         uint64_t now, uint32_t dialect, const wormweekly_pair *resource, size_t resource_length,
                         wormweekly_hold hold, void *host, uint8_t *out, size_t room, size_t *text_length);

/* THE LAST BATCH POINT BY POINT, for a host that writes a format of its own. Streams, points and keys are numbered from 0,
 * the streams within the batch. WORMWEEKLY_UNKNOWN says that there is none of a number. Where there is too little room
 * for a text, its length is written all the same. None needs a mutex. */

uint32_t wormweekly_batch(wormweekly_reader *reader, wormweekly_batch_out *batch);
uint32_t wormweekly_stream(wormweekly_reader *reader, size_t stream, wormweekly_stream_out *out);
uint32_t wormweekly_point(wormweekly_reader *reader, size_t stream, size_t point, wormweekly_point_out *out);

/* A text of a stream: its name (0), unit (1), description (2); its meter's name (3), version (4), schema URL (5). */
uint32_t wormweekly_stream_text(wormweekly_reader *reader, size_t stream, uint32_t kind, uint8_t *out, size_t room,
                                size_t *text_length);

/* The boundaries of a stream, and the counts of a point's buckets, where there is room for all of them. */
uint32_t wormweekly_boundaries(wormweekly_reader *reader, size_t stream, int64_t *out, size_t room);
uint32_t wormweekly_buckets(wormweekly_reader *reader, size_t stream, size_t point, uint64_t *out, size_t room);

/* The attributes of a point: for each key that the instrument declares, up to 8, the point's set key has an entry;
 * where it is not 0, the point has that key (wormweekly_key writes its name) with the value that the entry names
 * (wormweekly_value writes its kind, number and length of text, and the text). */
uint32_t wormweekly_key(wormweekly_reader *reader, size_t stream, size_t key, uint8_t *out, size_t room,
                        size_t *text_length);
uint32_t wormweekly_value(wormweekly_reader *reader, size_t stream, size_t key, uint16_t entry, wormweekly_attribute *value,
                          uint8_t *out, size_t room);

/* Writes a name and its length: of the instrument of a number (kind 0), of that one's meter (1), of a recorder (2), of
 * a reader (3). Where there is too little room, only the length is written. Needs no mutex. */
uint32_t wormweekly_name(wormweekly_recorder *recorder, uint32_t kind, uint32_t number, uint8_t *out, size_t room,
                         size_t *text_length);

/* The same names through a reader, where the catalogue declares no recorder. */
uint32_t wormweekly_reader_name(wormweekly_reader *reader, uint32_t kind, uint32_t number, uint8_t *out, size_t room,
                                size_t *text_length);

/* Writes the range of the instrument of a number, so that a host records a duration above it as the greatest value,
 * rather than not at all. Needs no mutex. */
uint32_t wormweekly_range(wormweekly_recorder *recorder, uint32_t instrument, wormweekly_range_out *out);

/* Writes what the stream of a number is, of all streams that the config gives the plan, from 0; WORMWEEKLY_UNKNOWN past
 * the last one. So a host may add up recordings of its own where all streams of an instrument are sums. Needs no
 * mutex. */
uint32_t wormweekly_plan_stream(wormweekly_recorder *recorder, size_t number, wormweekly_plan_stream_out *out);

/* Writes a line for each warning that the config gets: for each view that does not fit an instrument (streams that
 * collide are a fault of the opening). Where there is too little room, only the length is written. Needs no mutex. */
uint32_t wormweekly_warnings(wormweekly_recorder *recorder, uint8_t *out, size_t room, size_t *text_length);

/* Grants the recorder of a number (from 0, in the order of the catalogue) so many recordings on an instrument beside
 * its budget, of what is left of the instrument's spare budget (under its mutex). Takes no memory. */
uint32_t wormweekly_grant(wormweekly_instrument *instrument, uint32_t recorder, uint64_t amount);

/* The same grant for which the recorder itself asks, so that nobody has to know its number (under the instrument's
 * mutex). */
uint32_t wormweekly_ask(wormweekly_instrument *instrument, wormweekly_recorder *recorder, uint64_t amount);

/* Writes what the recorder has left of its budget on an instrument, and what an instrument has to spare (each under the
 * instrument's mutex). Ask for more in time: a recording past the budget is refused, and not counted. */
uint32_t wormweekly_budget(wormweekly_instrument *instrument, wormweekly_recorder *recorder, wormweekly_budget_out *out);
uint32_t wormweekly_spare(wormweekly_instrument *instrument, wormweekly_spare_out *out);

/* Writes how often each instrument of the recorder's plan may be recorded, in order, where there is room for all of
 * them. It looks at each stream of the plan, so ask once. Needs no mutex. */
uint32_t wormweekly_headrooms(wormweekly_recorder *recorder, wormweekly_headroom_out *out, size_t room);

/* Ends the recordings of an instrument (under its mutex). It is collected and settled as before. */
uint32_t wormweekly_close(wormweekly_instrument *instrument);

/* Compares an instrument with what the recorders of its run were told, all of them in any order, and writes its total,
 * which is exactly that (under the instrument's mutex, with no other call on these recorders). */
uint32_t wormweekly_settle(wormweekly_instrument *instrument, wormweekly_recorder *recorders, size_t recorders_length,
                           wormweekly_total *total);

void wormweekly_free_instrument(wormweekly_instrument *instrument);
void wormweekly_free_recorder(wormweekly_recorder *recorder);
void wormweekly_free_reader(wormweekly_reader *reader);

#ifdef __cplusplus
}
#endif

#endif
