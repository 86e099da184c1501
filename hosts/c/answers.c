/* Makes every call of the header: done, refused, with null handles and those of another kind, with too little room,
 * with bytes that are no text and with numbers of nothing. The first call that answers or writes something else than
 * its row says is told with its line, and the status is then 1.
 */
#include "wormweekly.h"

#include <stdio.h>
#include <stdlib.h>
#include <string.h>

/* What the catalogue and the config declare, in their order. */
enum { ORDERS, ARTICLES, QUEUE, INSTRUMENTS };
enum { DAY, NIGHT, RECORDERS };
enum { CONSOLE, CHANGES, READERS };

static const char CATALOGUE[] =
    "format = 2\n"
    "[[meter]]\n"
    "name = 'shop'\n"
    "version = '2'\n"
    "schema_url = 'https://shop.example'\n"
    "[[meter.instrument]]\n"
    "name = 'orders'\n"
    "kind = 'up_down_counter'\n"
    "unit = 'EUR'\n"
    "description = 'what was paid'\n"
    "range = [-100, 100]\n"
    "key = [{ name = 'country', values = ['de', 'fr'] }, { name = 'paid', values = [true, 7] }]\n"
    "allowed = [[1, 1], [2, 1], [2, 2]]\n"
    "[[meter.instrument]]\n"
    "name = 'articles'\n"
    "kind = 'histogram'\n"
    "range = [0, 100]\n"
    "boundaries = [10, 20]\n"
    "spare = 2\n"
    "key = [{ name = 'country', values = ['de', 'fr'] }]\n"
    "[[meter.instrument]]\n"
    "name = 'queue'\n"
    "kind = 'gauge'\n"
    "range = [0, 9]\n"
    "key = [{ name = 'shift', values = ['early', 'late'], optional = true }]\n"
    "[[recorder]]\n"
    "name = 'day'\n"
    "budget = [{ instrument = 0, amount = 5 }, { instrument = 1, amount = 3 }, { instrument = 2, amount = 3 }]\n"
    "[[recorder]]\n"
    "name = 'night'\n"
    "budget = [{ instrument = 0, amount = 6 }]\n";

/* No view can give a gauge a sum, so this one is warned of. */
static const char CONFIG[] = "format = 1\n"
                             "[[reader]]\n"
                             "name = 'console'\n"
                             "[[reader]]\n"
                             "name = 'changes'\n"
                             "temporality = { histogram = 'delta' }\n"
                             "[[view]]\n"
                             "instrument_name = 'queue'\n"
                             "aggregation = 'sum'\n";

/* A smaller plan with its certificate. */
static const char TILL[] = "format = 1\n"
                           "[[meter]]\n"
                           "name = 'shop'\n"
                           "[[meter.instrument]]\n"
                           "name = 'orders'\n"
                           "kind = 'up_down_counter'\n"
                           "range = [-100, 100]\n"
                           "key = [{ name = 'country', values = ['de', 'fr'] },\n"
                           "       { name = 'paid', values = [true, 7] }]\n"
                           "[[recorder]]\n"
                           "name = 'till'\n"
                           "budget = [{ instrument = 0, amount = 6 }]\n";

static const char TILL_CONFIG[] = "format = 1\n"
                                  "[[reader]]\n"
                                  "name = 'console'\n";

static const char CERTIFICATE[] =
    "format = 1\n"
    "reason = []\n"
    "stream = [{ reader = 0, instrument = 0, by = 'product', sets = 4 }]\n"
    "bound = [{ instrument = 0, total = '6', amount = '1200', low = '-600', high = '600' }]\n"
    "order = [{ reader = 0, streams = [0] }]\n";

/* One recording more than the catalogue has. */
static const char WRONG_CERTIFICATE[] =
    "format = 1\n"
    "reason = []\n"
    "stream = [{ reader = 0, instrument = 0, by = 'product', sets = 4 }]\n"
    "bound = [{ instrument = 0, total = '7', amount = '1200', low = '-600', high = '600' }]\n"
    "order = [{ reader = 0, streams = [0] }]\n";

/* Attributes, whose texts stand in the row. */
static const wormweekly_attribute NONE[] = { { 0, WORMWEEKLY_NO, 0, 0 } };
static const wormweekly_attribute COUNTRY[] = { { 7, WORMWEEKLY_TEXT, 2, 0 } };
static const wormweekly_attribute PAID[] = { { 7, WORMWEEKLY_TEXT, 2, 0 }, { 4, WORMWEEKLY_YES, 0, 0 } };
static const wormweekly_attribute PAID_FIRST[] = { { 4, WORMWEEKLY_YES, 0, 0 }, { 7, WORMWEEKLY_TEXT, 2, 0 } };
static const wormweekly_attribute PAID_7[] = { { 7, WORMWEEKLY_TEXT, 2, 0 }, { 4, WORMWEEKLY_WHOLE, 0, 7 } };
static const wormweekly_attribute UNPAID[] = { { 7, WORMWEEKLY_TEXT, 2, 0 }, { 4, WORMWEEKLY_NO, 0, 0 } };
static const wormweekly_attribute TWICE[] = { { 7, WORMWEEKLY_TEXT, 2, 0 }, { 7, WORMWEEKLY_TEXT, 2, 0 } };
static const wormweekly_attribute LONG_KEY[] = { { SIZE_MAX, WORMWEEKLY_TEXT, 2, 0 } };
static const wormweekly_attribute LONG_TEXT[] = { { 7, WORMWEEKLY_TEXT, SIZE_MAX, 0 } };
static const wormweekly_attribute NO_KIND[] = { { 7, 4, 2, 0 } };
static const wormweekly_attribute SERVICE[] = { { 12, WORMWEEKLY_TEXT, 4, 0 } };
static const wormweekly_attribute SERVICE_TWICE[] = { { 12, WORMWEEKLY_TEXT, 4, 0 }, { 12, WORMWEEKLY_TEXT, 4, 0 } };
static const wormweekly_attribute ONE_LABEL[] = { { 3, WORMWEEKLY_TEXT, 1, 0 }, { 3, WORMWEEKLY_TEXT, 1, 0 } };
static const wormweekly_attribute NO_KEY[] = { { 1, WORMWEEKLY_YES, 0, 0 }, { 0, WORMWEEKLY_YES, 0, 0 } };
/* Instruments as a host was made for them: meter, name and unit, then the values of the keys. */
#define HEAD(meter, name, unit) { 0, WORMWEEKLY_TEXT, meter, 0 }, { 0, WORMWEEKLY_TEXT, name, 0 }, { 0, WORMWEEKLY_TEXT, unit, 0 }
static const wormweekly_attribute BARE[] = { HEAD(4, 6, 3) };
static const wormweekly_attribute MEANT[] = { HEAD(4, 6, 3), { 7, WORMWEEKLY_TEXT, 2, 0 }, { 7, WORMWEEKLY_TEXT, 2, 0 },
                                              { 4, WORMWEEKLY_YES, 0, 0 }, { 4, WORMWEEKLY_WHOLE, 0, 7 } };
static const wormweekly_attribute MEANT_FRONT[] = { HEAD(4, 6, 3), { 7, WORMWEEKLY_TEXT, 2, 0 }, { 4, WORMWEEKLY_YES, 0, 0 } };
static const wormweekly_attribute MEANT_MORE[] = { HEAD(4, 6, 3), { 7, WORMWEEKLY_TEXT, 2, 0 }, { 4, WORMWEEKLY_YES, 0, 0 },
                                                   { 6, WORMWEEKLY_NO, 0, 0 } };
static const wormweekly_attribute MEANT_3[] = { HEAD(4, 6, 3), { 7, WORMWEEKLY_TEXT, 2, 0 }, { 7, WORMWEEKLY_TEXT, 2, 0 },
                                                { 7, WORMWEEKLY_TEXT, 2, 0 }, { 4, WORMWEEKLY_YES, 0, 0 } };
static const wormweekly_attribute MEANT_8[] = { HEAD(4, 6, 3), { 7, WORMWEEKLY_TEXT, 2, 0 }, { 4, WORMWEEKLY_WHOLE, 0, 7 } };
static const wormweekly_attribute SHORT_VALUE[] = { HEAD(4, 6, 3), { 7, WORMWEEKLY_TEXT, 1, 0 }, { 4, WORMWEEKLY_YES, 0, 0 } };
static const wormweekly_attribute PAID_MEANT[] = { HEAD(4, 6, 3), { 4, WORMWEEKLY_YES, 0, 0 }, { 7, WORMWEEKLY_TEXT, 2, 0 } };
static const wormweekly_attribute QUEUE_MEANT[] = { HEAD(4, 5, 0) };
static const wormweekly_attribute SHIFT_MEANT[] = { HEAD(4, 5, 0), { 5, WORMWEEKLY_TEXT, 5, 0 } };
static const wormweekly_attribute TWO_TEXTS[] = { { 0, WORMWEEKLY_TEXT, 4, 0 }, { 0, WORMWEEKLY_TEXT, 6, 0 } };
static const wormweekly_attribute NO_UNIT[] = { { 0, WORMWEEKLY_TEXT, 4, 0 }, { 0, WORMWEEKLY_TEXT, 6, 0 }, { 0, WORMWEEKLY_YES, 0, 0 } };
static const wormweekly_attribute KEYED[] = { { 4, WORMWEEKLY_TEXT, 6, 0 }, { 0, WORMWEEKLY_TEXT, 3, 0 }, { 0, WORMWEEKLY_TEXT, 0, 0 } };
/* More than a resource may have. */
static const wormweekly_attribute MANY[65] = { { 0, WORMWEEKLY_YES, 0, 0 } };
/* More than a call reads without taking memory. */
static const wormweekly_attribute NINE[] = {
    { 1, WORMWEEKLY_YES, 0, 0 }, { 1, WORMWEEKLY_YES, 0, 0 }, { 1, WORMWEEKLY_YES, 0, 0 },
    { 1, WORMWEEKLY_YES, 0, 0 }, { 1, WORMWEEKLY_YES, 0, 0 }, { 1, WORMWEEKLY_YES, 0, 0 },
    { 1, WORMWEEKLY_YES, 0, 0 }, { 1, WORMWEEKLY_YES, 0, 0 }, { 1, WORMWEEKLY_YES, 0, 0 },
};

static const wormweekly_pair PAIRS[] = { { .key = "paid", .kind = WORMWEEKLY_YES }, { .key = "country", .text = "de" } };
static const wormweekly_pair PAIRS_7[] = { { .key = "country", .text = "fr" },
                                           { .key = "paid", .kind = WORMWEEKLY_WHOLE, .whole = 7 } };
static const wormweekly_pair PAIRS_UK[] = { { .key = "country", .text = "uk" }, { .key = "paid", .kind = WORMWEEKLY_YES } };
static const wormweekly_pair NO_PAIR[] = { { .key = NULL, .text = NULL } };
static const wormweekly_pair PAIR_OF_NO_KIND[] = { { .key = "paid", .kind = 4 } };
static const wormweekly_pair SERVICE_PAIR[] = { { .key = "service.name", .text = "shop" } };
/* More than are looked at, and a text that takes memory, as `fill_keys` makes them. */
static wormweekly_pair MANY_PAIRS[70], LONG_PAIR[1];
static char long_text[2000];

/* Far more than a recording looks at, each with a key of one byte, as `fill_keys` makes them; and so many keys. */
static wormweekly_attribute KEYS[100000];
#define KEYS_64 "ABCDEFGHIJKLMNOPQRSTUVWXYZabcdefghijklmnopqrstuvwxyz0123456789-+"
#define KEYS_65 KEYS_64 "*"

/* The handles of two runs, those of the second after those of the first, and what was prepared last. */
static wormweekly_instrument instruments[2 * INSTRUMENTS] = { WORMWEEKLY_NOTHING };
static wormweekly_recorder recorders[2 * RECORDERS] = { WORMWEEKLY_NOTHING };
static wormweekly_reader readers[2 * READERS] = { WORMWEEKLY_NOTHING };
static wormweekly_prepared prepared;

/* What a call answers and writes: numbers, or a text. */
enum { NUMBERS = 9, ROOM = 1000 };
struct told {
    uint32_t answer;
    int64_t numbers[NUMBERS];
    const char *text;
};

/* A call with what it is given, as far as it takes that, and with what it is to answer and write. Handles are named by
 * their places, or by the first of their places with how many they are. Where it is short of room, there is room for
 * one byte or number. */
struct row {
    int line;
    const char *name;
    struct told (*call)(const struct row *row);
    size_t instrument, recorder, reader;
    wormweekly_counts handles;
    const char *catalogue, *config, *certificate;
    const char *texts;
    const wormweekly_attribute *given;
    size_t given_length;
    const wormweekly_pair *pairs;
    size_t pairs_length;
    int64_t value;
    uint64_t time, amount;
    size_t stream, point, key;
    uint32_t kind, number;
    uint16_t entry;
    int is_short;
    uint32_t answer;
    int64_t numbers[NUMBERS];
    const char *text;
};

#define CALL(function) .line = __LINE__, .name = "wormweekly_" #function, .call = function
#define GIVEN(list) .given = (list), .given_length = sizeof(list) / sizeof *(list)
#define PAIRED(list) .pairs = (list), .pairs_length = sizeof(list) / sizeof *(list)
#define ALL_HANDLES .handles = { INSTRUMENTS, RECORDERS, READERS }
#define ALL_RECORDERS .recorder = DAY, .handles.recorders = RECORDERS
#define SECOND_RUN .instrument = INSTRUMENTS, .recorder = RECORDERS, .reader = READERS

static const uint8_t *bytes(const char *text) { return (const uint8_t *)text; }

/* What calls write texts into. */
static char buffer[ROOM + 1];

static uint8_t *clear_buffer(void) {
    memset(buffer, '.', ROOM);
    return (uint8_t *)buffer;
}

/* What a call wrote into the buffer: a text of this length where it was done, else nothing. */
static const char *written(uint32_t answer, size_t length) {
    size_t own = answer == WORMWEEKLY_DONE ? length : 0;
    if (own > ROOM || strspn(buffer + own, ".") != ROOM - own) {
        return "(more than its text)";
    }
    buffer[own] = '\0';
    return buffer;
}

/* The same with the length, where that alone is written. */
static struct told told_text(uint32_t answer, size_t length) {
    struct told told = { .answer = answer, .text = written(answer, length) };
    told.numbers[0] = answer == WORMWEEKLY_DONE ? 0 : (int64_t)length;
    return told;
}

static size_t room_for(const struct row *row, size_t room) { return row->is_short ? 1 : room; }

static struct told answered(uint32_t answer) { return (struct told){ .answer = answer }; }

/* What an opening wrote: how many handles there are to be, the length of the fault, and as much of it as has room. */
static struct told told_opening(uint32_t answer, const wormweekly_counts *counts, size_t length, size_t room) {
    size_t front = answer != WORMWEEKLY_FAULT ? 0 : length < room ? length : room;
    struct told told = { .answer = answer, .text = written(WORMWEEKLY_DONE, front) };
    told.numbers[0] = (int64_t)counts->instruments;
    told.numbers[1] = (int64_t)counts->recorders;
    told.numbers[2] = (int64_t)counts->readers;
    told.numbers[3] = (int64_t)length;
    return told;
}

enum { START = 3 };

static struct told open(const struct row *row) {
    wormweekly_counts counts = { 0 };
    size_t length = 9, room = room_for(row, ROOM);
    uint32_t answer = wormweekly_open(
        bytes(row->catalogue), strlen(row->catalogue), bytes(row->config), strlen(row->config), START,
        &instruments[row->instrument], row->handles.instruments, &recorders[row->recorder], row->handles.recorders,
        &readers[row->reader], row->handles.readers, &counts, clear_buffer(), room, &length);
    return told_opening(answer, &counts, length, room);
}

static struct told open_certified(const struct row *row) {
    wormweekly_counts counts = { 0 };
    size_t length = 9, room = room_for(row, ROOM);
    uint32_t answer = wormweekly_open_certified(
        bytes(row->catalogue), strlen(row->catalogue), bytes(row->config), strlen(row->config),
        bytes(row->certificate), strlen(row->certificate), START, &instruments[row->instrument],
        row->handles.instruments, &recorders[row->recorder], row->handles.recorders, &readers[row->reader],
        row->handles.readers, &counts, clear_buffer(), room, &length);
    return told_opening(answer, &counts, length, room);
}

/* Fills the handles of the second run by the recorder of a number. */
static struct told next(const struct row *row) {
    wormweekly_counts counts = { 9, 9, 9 };
    struct told told = answered(wormweekly_next(&recorders[row->number], START + 1, &instruments[row->instrument],
                                                row->handles.instruments, &recorders[row->recorder],
                                                row->handles.recorders, &readers[row->reader], row->handles.readers,
                                                &counts));
    told.numbers[0] = (int64_t)counts.instruments;
    told.numbers[1] = (int64_t)counts.recorders;
    told.numbers[2] = (int64_t)counts.readers;
    return told;
}

static struct told free_handles(const struct row *row) {
    for (size_t i = 0; i < row->handles.instruments; i++) {
        wormweekly_free_instrument(&instruments[row->instrument + i]);
    }
    for (size_t i = 0; i < row->handles.recorders; i++) {
        wormweekly_free_recorder(&recorders[row->recorder + i]);
    }
    for (size_t i = 0; i < row->handles.readers; i++) {
        wormweekly_free_reader(&readers[row->reader + i]);
    }
    return answered(WORMWEEKLY_DONE);
}

static struct told record(const struct row *row) {
    return answered(wormweekly_record(&instruments[row->instrument], &recorders[row->recorder], bytes(row->texts),
                                      strlen(row->texts), row->given, row->given_length, row->value));
}

static struct told record_pairs(const struct row *row) {
    return answered(wormweekly_record_pairs(&instruments[row->instrument], &recorders[row->recorder], row->pairs,
                                            row->pairs_length, row->value));
}

static struct told prepare_pairs(const struct row *row) {
    struct told told = answered(wormweekly_prepare_pairs(&recorders[row->recorder], row->number, row->pairs,
                                                         row->pairs_length, &prepared));
    told.numbers[0] = prepared.set[0];
    told.numbers[1] = prepared.set[1];
    return told;
}

static struct told version(const struct row *row) {
    (void)row;
    return (struct told){ .text = wormweekly_version() };
}

/* Writes the first entries of the set key. */
static struct told prepare(const struct row *row) {
    struct told told = answered(wormweekly_prepare(&recorders[row->recorder], row->number, bytes(row->texts),
                                                   strlen(row->texts), row->given, row->given_length, &prepared));
    told.numbers[0] = prepared.set[0];
    told.numbers[1] = prepared.set[1];
    return told;
}

static struct told record_prepared(const struct row *row) {
    prepared.value = row->value;
    return answered(wormweekly_record_prepared(&instruments[row->instrument], &recorders[row->recorder], &prepared));
}

/* A set key that no call wrote. */
static struct told record_forged(const struct row *row) {
    wormweekly_prepared forged = { .value = row->value };
    forged.set[row->key] = row->entry;
    return answered(wormweekly_record_prepared(&instruments[row->instrument], &recorders[row->recorder], &forged));
}

/* A set key that the host writes. */
static struct told record_written(const struct row *row) {
    const wormweekly_prepared own = { .set = { row->entry, (uint16_t)row->amount }, .value = row->value };
    return answered(wormweekly_record_prepared(&instruments[row->instrument], &recorders[row->recorder], &own));
}

/* What was prepared, twice. Writes how many were made. */
static struct told record_list(const struct row *row) {
    wormweekly_prepared list[2] = { prepared, prepared };
    size_t made = 9;
    list[0].value = list[1].value = row->value;
    struct told told =
        answered(wormweekly_record_list(&instruments[row->instrument], &recorders[row->recorder], list, 2, &made));
    told.numbers[0] = (int64_t)made;
    return told;
}

static struct told collect(const struct row *row) {
    return answered(wormweekly_collect(&instruments[row->instrument], &readers[row->reader], row->time));
}

static struct told text(const struct row *row) {
    size_t length = 0;
    uint32_t answer = wormweekly_text(&readers[row->reader], clear_buffer(), room_for(row, ROOM), &length);
    return told_text(answer, length);
}

/* Writes a line of JSON as it is, and a request as digits of 16. */
static struct told otlp(const struct row *row) {
    static char digits[2 * ROOM + 1];
    size_t length = 0;
    uint32_t answer =
        wormweekly_otlp(&readers[row->reader], row->kind, bytes(row->texts), strlen(row->texts), row->given,
                        row->given_length, clear_buffer(), room_for(row, ROOM), &length);
    if (answer != WORMWEEKLY_DONE || row->kind == 1) {
        return told_text(answer, length);
    }
    for (size_t i = 0; i < length && i < ROOM; i++) {
        sprintf(digits + 2 * i, "%02x", (unsigned)(uint8_t)buffer[i]);
    }
    return (struct told){ .answer = answer, .text = length == 0 ? "" : digits };
}

static struct told prometheus(const struct row *row) {
    size_t length = 0;
    uint32_t answer =
        wormweekly_prometheus(&readers[row->reader], row->kind, clear_buffer(), room_for(row, ROOM), &length);
    return told_text(answer, length);
}

/* Counts how often an instrument is held, and at 100 how often it is let go. */
static void hold(void *host, size_t instrument, int is_held) {
    (void)instrument;
    *(int64_t *)host += is_held ? 1 : 100;
}

static struct told page(const struct row *row) {
    size_t length = 0;
    int64_t holds = 0;
    uint32_t answer = wormweekly_page(&instruments[row->instrument], row->handles.instruments, &readers[row->reader],
                                      row->time, row->kind, row->pairs, row->pairs_length, row->amount ? hold : NULL,
                                      &holds, clear_buffer(), room_for(row, ROOM), &length);
    /* what does not fit is no page */
    if (answer == WORMWEEKLY_TOO_SHORT) clear_buffer();
    struct told told = told_text(answer, length);
    told.numbers[1] = holds;
    return told;
}

static struct told prometheus_target(const struct row *row) {
    size_t length = 0;
    uint32_t answer = wormweekly_prometheus_target(row->kind, bytes(row->texts), strlen(row->texts), row->given,
                                                   row->given_length, clear_buffer(), room_for(row, ROOM), &length);
    return told_text(answer, length);
}

/* Writes the length of the fault, and as much of it as has room. */
static struct told expose(const struct row *row) {
    size_t length = 9, room = room_for(row, ROOM);
    struct told told = answered(wormweekly_expose(&readers[row->reader], clear_buffer(), room, &length));
    told.numbers[0] = (int64_t)length;
    told.text = written(WORMWEEKLY_DONE, told.answer != WORMWEEKLY_FAULT ? 0 : length < room ? length : room);
    return told;
}

/* The remarks on two texts, or their fault. */
static struct told lint(const struct row *row) {
    size_t length = 9, room = room_for(row, ROOM);
    uint32_t answer = wormweekly_lint(bytes(row->catalogue), strlen(row->catalogue), bytes(row->config), strlen(row->config),
                                      clear_buffer(), room, &length);
    if (answer != WORMWEEKLY_FAULT) {
        return told_text(answer, length);
    }
    struct told told = { .answer = answer, .text = written(WORMWEEKLY_DONE, length < room ? length : room) };
    told.numbers[0] = (int64_t)length;
    return told;
}

static struct told explain(const struct row *row) {
    size_t length = 9;
    uint32_t answer =
        wormweekly_explain(&recorders[row->recorder], row->number, bytes(row->texts), strlen(row->texts), row->given,
                           row->given_length, row->value, clear_buffer(), room_for(row, ROOM), &length);
    return told_text(answer, length);
}

/* The keys that may be left out are bits of the amount. Writes the length of the fault, and as much of it as has room. */
static struct told expect(const struct row *row) {
    size_t length = 9, room = room_for(row, ROOM);
    struct told told = answered(wormweekly_expect(&recorders[row->recorder], row->number, row->kind, bytes(row->texts),
                                                  strlen(row->texts), row->given, row->given_length, (uint32_t)row->amount,
                                                  clear_buffer(), room, &length));
    told.numbers[0] = (int64_t)length;
    told.text = written(WORMWEEKLY_DONE, told.answer != WORMWEEKLY_FAULT ? 0 : length < room ? length : room);
    return told;
}

static struct told warnings(const struct row *row) {
    size_t length = 0;
    uint32_t answer = wormweekly_warnings(&recorders[row->recorder], clear_buffer(), room_for(row, ROOM), &length);
    return told_text(answer, length);
}

static struct told name(const struct row *row) {
    size_t length = 0;
    uint32_t answer = wormweekly_name(&recorders[row->recorder], row->kind, row->number, clear_buffer(),
                                      room_for(row, ROOM), &length);
    return told_text(answer, length);
}

static struct told reader_name(const struct row *row) {
    size_t length = 0;
    uint32_t answer = wormweekly_reader_name(&readers[row->reader], row->kind, row->number, clear_buffer(),
                                             room_for(row, ROOM), &length);
    return told_text(answer, length);
}

static struct told stream_text(const struct row *row) {
    size_t length = 0;
    uint32_t answer = wormweekly_stream_text(&readers[row->reader], row->stream, row->kind, clear_buffer(),
                                             room_for(row, ROOM), &length);
    return told_text(answer, length);
}

static struct told key(const struct row *row) {
    size_t length = 0;
    uint32_t answer = wormweekly_key(&readers[row->reader], row->stream, row->key, clear_buffer(),
                                     room_for(row, ROOM), &length);
    return told_text(answer, length);
}

/* Writes the kind, the length of the text and the number. */
static struct told value(const struct row *row) {
    wormweekly_attribute own = { 9, 9, 9, 9 };
    uint32_t answer = wormweekly_value(&readers[row->reader], row->stream, row->key, row->entry, &own, clear_buffer(),
                                       room_for(row, ROOM));
    return (struct told){ answer, { (int64_t)own.kind, (int64_t)own.text, own.whole }, written(answer, own.text) };
}

static struct told batch(const struct row *row) {
    wormweekly_batch_out out = { 0 };
    struct told told = answered(wormweekly_batch(&readers[row->reader], &out));
    told.numbers[0] = (int64_t)out.instrument;
    told.numbers[1] = (int64_t)out.streams;
    told.numbers[2] = (int64_t)out.start;
    told.numbers[3] = (int64_t)out.time;
    return told;
}

static struct told stream(const struct row *row) {
    wormweekly_stream_out out = { 0 };
    struct told told = answered(wormweekly_stream(&readers[row->reader], row->stream, &out));
    told.numbers[0] = (int64_t)out.number;
    told.numbers[1] = (int64_t)out.kind;
    told.numbers[2] = (int64_t)out.aggregation;
    told.numbers[3] = (int64_t)out.delta;
    told.numbers[4] = (int64_t)out.boundaries;
    told.numbers[5] = (int64_t)out.points;
    return told;
}

/* Writes the first entries of the set key, and the rest of the point. */
static struct told point(const struct row *row) {
    wormweekly_point_out out = { 0 };
    struct told told = answered(wormweekly_point(&readers[row->reader], row->stream, row->point, &out));
    told.numbers[0] = out.set[0];
    told.numbers[1] = out.set[1];
    told.numbers[2] = (int64_t)out.is_series;
    told.numbers[3] = (int64_t)out.count;
    told.numbers[4] = (int64_t)out.has_value;
    told.numbers[5] = out.value;
    told.numbers[6] = out.least;
    told.numbers[7] = out.greatest;
    told.numbers[8] = (int64_t)out.buckets;
    return told;
}

static struct told boundaries(const struct row *row) {
    struct told told = { 0 };
    told.answer = wormweekly_boundaries(&readers[row->reader], row->stream, told.numbers, room_for(row, NUMBERS));
    return told;
}

static struct told buckets(const struct row *row) {
    uint64_t counts[NUMBERS] = { 0 };
    struct told told = answered(wormweekly_buckets(&readers[row->reader], row->stream, row->point, counts,
                                                   room_for(row, NUMBERS)));
    for (int i = 0; i < NUMBERS; i++) {
        told.numbers[i] = (int64_t)counts[i];
    }
    return told;
}

static struct told grant(const struct row *row) {
    return answered(wormweekly_grant(&instruments[row->instrument], row->number, row->amount));
}

static struct told ask(const struct row *row) {
    return answered(wormweekly_ask(&instruments[row->instrument], &recorders[row->recorder], row->amount));
}

static struct told range(const struct row *row) {
    wormweekly_range_out out = { 0, 0 };
    struct told told = answered(wormweekly_range(&recorders[row->recorder], row->number, &out));
    told.numbers[0] = out.least;
    told.numbers[1] = out.greatest;
    return told;
}

static struct told plan_stream(const struct row *row) {
    wormweekly_plan_stream_out out = { 0, 0, 0, 0, 0 };
    struct told told = answered(wormweekly_plan_stream(&recorders[row->recorder], row->stream, &out));
    told.numbers[0] = (int64_t)out.instrument;
    told.numbers[1] = (int64_t)out.reader;
    told.numbers[2] = (int64_t)out.kind;
    told.numbers[3] = (int64_t)out.aggregation;
    told.numbers[4] = (int64_t)out.delta;
    return told;
}

static struct told budget(const struct row *row) {
    wormweekly_budget_out out = { 0 };
    struct told told =
        answered(wormweekly_budget(&instruments[row->instrument], &recorders[row->recorder], &out));
    told.numbers[0] = (int64_t)out.declared;
    told.numbers[1] = (int64_t)out.granted;
    told.numbers[2] = (int64_t)out.spent;
    told.numbers[3] = (int64_t)out.left;
    return told;
}

static struct told spare(const struct row *row) {
    wormweekly_spare_out out = { 0 };
    struct told told = answered(wormweekly_spare(&instruments[row->instrument], &out));
    told.numbers[0] = (int64_t)out.declared;
    told.numbers[1] = (int64_t)out.granted;
    told.numbers[2] = (int64_t)out.left;
    return told;
}

/* That of one instrument. */
static struct told headrooms(const struct row *row) {
    wormweekly_headroom_out out[INSTRUMENTS] = { { 0 } };
    struct told told =
        answered(wormweekly_headrooms(&recorders[row->recorder], out, room_for(row, INSTRUMENTS)));
    told.numbers[0] = (int64_t)out[row->instrument].declared;
    told.numbers[1] = (int64_t)out[row->instrument].most;
    told.numbers[2] = (int64_t)out[row->instrument].limit;
    told.numbers[3] = (int64_t)out[row->instrument].stream;
    return told;
}

static struct told close(const struct row *row) { return answered(wormweekly_close(&instruments[row->instrument])); }

static struct told settle(const struct row *row) {
    wormweekly_total total = { 0 };
    struct told told = answered(
        wormweekly_settle(&instruments[row->instrument], &recorders[row->recorder], row->handles.recorders, &total));
    told.numbers[0] = (int64_t)total.count;
    told.numbers[1] = (int64_t)total.negative;
    told.numbers[2] = (int64_t)total.high;
    told.numbers[3] = (int64_t)total.low;
    return told;
}

static const char ORDERS_TEXT[] =
    "collected 9 2\n"
    "stream reader=\"console\" meter=\"shop\" version=\"2\" schema=\"https://shop.example\" name=\"orders\" "
    "unit=\"EUR\" description=\"what was paid\" kind=sum monotonic=no temporality=cumulative\n"
    "point {\"country\"=\"de\",\"paid\"=true} start=3 time=9 value=15\n"
    "point {\"country\"=\"fr\",\"paid\"=true} start=3 time=9 value=-150\n";

static const char WARNINGS[] = "warning Unfit view=0 instrument=2\n";

/* The same batch in the OpenTelemetry protocol, with the resource attribute {"service.name" = "shop"}: the bytes of a
 * request, as digits of 16, and its line of JSON. */
static const char ORDERS_REQUEST[] =
    "0ad5010a180a160a0c736572766963652e6e616d6512060a0473686f7012b8010a090a0473686f701201321294010a066f72"
    "64657273120d776861742077617320706169641a034555523a760a38110300000000000000190900000000000000310f0000"
    "00000000003a0f0a07636f756e74727912040a0264653a0a0a0470616964120210010a381103000000000000001909000000"
    "00000000316affffffffffffff3a0f0a07636f756e74727912040a0266723a0a0a04706169641202100110021a1468747470"
    "733a2f2f73686f702e6578616d706c65";

static const char ORDERS_LINE[] =
    "{\"resourceMetrics\":[{\"resource\":{\"attributes\":[{\"key\":\"service.name\",\"value\":{\"stringValue"
    "\":\"shop\"}}]},\"scopeMetrics\":[{\"scope\":{\"name\":\"shop\",\"version\":\"2\"},\"metrics\":[{\"name\":\"or"
    "ders\",\"description\":\"what was paid\",\"unit\":\"EUR\",\"sum\":{\"dataPoints\":[{\"attributes\":[{\"key"
    "\":\"country\",\"value\":{\"stringValue\":\"de\"}},{\"key\":\"paid\",\"value\":{\"boolValue\":true}}],\"star"
    "tTimeUnixNano\":\"3\",\"timeUnixNano\":\"9\",\"asInt\":\"15\"},{\"attributes\":[{\"key\":\"country\",\"value"
    "\":{\"stringValue\":\"fr\"}},{\"key\":\"paid\",\"value\":{\"boolValue\":true}}],\"startTimeUnixNano\":\"3\""
    ",\"timeUnixNano\":\"9\",\"asInt\":\"-150\"}],\"aggregationTemporality\":2}}],\"schemaUrl\":\"https://sh"
    "op.example\"}]}]}"
    "\n";

/* The same batch in a page of the text format and of OpenMetrics, and what such pages tell of the resource. */
static const char ORDERS_PAGE[] =
    "# HELP orders_EUR what was paid\n"
    "# TYPE orders_EUR gauge\n"
    "orders_EUR{country=\"de\",paid=\"true\",otel_scope_name=\"shop\",otel_scope_version=\"2\",otel_scope_schema_url=\"https://shop.example\"} 15\n"
    "orders_EUR{country=\"fr\",paid=\"true\",otel_scope_name=\"shop\",otel_scope_version=\"2\",otel_scope_schema_url=\"https://shop.example\"} -150\n";

static const char ORDERS_OPEN_PAGE[] =
    "# HELP orders_EUR what was paid\n"
    "# TYPE orders_EUR gauge\n"
    "# UNIT orders_EUR EUR\n"
    "orders_EUR{country=\"de\",paid=\"true\",otel_scope_name=\"shop\",otel_scope_version=\"2\",otel_scope_schema_url=\"https://shop.example\"} 15\n"
    "orders_EUR{country=\"fr\",paid=\"true\",otel_scope_name=\"shop\",otel_scope_version=\"2\",otel_scope_schema_url=\"https://shop.example\"} -150\n";

static const char TARGET[] =
    "# HELP target_info Target metadata\n"
    "# TYPE target_info gauge\n"
    "target_info{service_name=\"shop\"} 1\n";

static const char TWO_LABELS[] =
    "# HELP target_info Target metadata\n"
    "# TYPE target_info gauge\n"
    "target_info{a_b=\"1\",a_c=\"2\"} 1\n";

static const char OPEN_TARGET[] =
    "# HELP target Target metadata\n"
    "# TYPE target info\n"
    "target_info{service_name=\"shop\"} 1\n";

/* Texts with one fault each. */
static const char MISSPELLED[] = "format = 1\n"
                                 "[[meter]]\n"
                                 "name = 'shop'\n"
                                 "[[meter.instrument]]\n"
                                 "name = 'queue'\n"
                                 "kind = 'guage'\n"
                                 "range = [0, 9]\n";

static const char TWO_VIEWS[] = "format = 1\n"
                                "[[reader]]\n"
                                "name = 'console'\n"
                                "[[view]]\n"
                                "instrument_name = 'orders'\n"
                                "[[view]]\n"
                                "meter_name = 'shop'\n";

static const char LOW_LIMIT[] = "format = 1\n"
                                "[[reader]]\n"
                                "name = 'console'\n"
                                "[[view]]\n"
                                "instrument_name = 'orders'\n"
                                "limit = 3\n";

/* One recording more than is safe. */
static const char RICH_TILL[] = "format = 1\n"
                                "[[meter]]\n"
                                "name = 'shop'\n"
                                "[[meter.instrument]]\n"
                                "name = 'orders'\n"
                                "kind = 'up_down_counter'\n"
                                "range = [-100, 100]\n"
                                "[[recorder]]\n"
                                "name = 'till'\n"
                                "budget = [{ instrument = 0, amount = 92233720368547759 }]\n";

static const char BAD_FORMAT[] = "catalogue:1:1: catalogue format 4 is not supported (only 1 to 3)";
static const char BAD_KIND[] = "catalogue:6:1: instrument 0 \"queue\": unknown kind \"guage\"; expected counter, up_down_counter, "
                               "histogram or gauge; did you mean gauge?";
static const char NO_NAME[] = "config:2:1: reader 0: missing field \"name\"";
static const char COLLISION[] =
    "config:6:1: stream 0 \"orders\" of reader 0 \"console\" (instrument 0 \"orders\", view 0 at config:4:1) and "
    "stream 1 \"orders\" of reader 0 \"console\" (instrument 0 \"orders\", view 1 at config:6:1) have one identity: "
    "the same name in one meter";
#define FEW_SETS \
    "config:4:1: stream 0 \"orders\" of reader 0 \"console\" (instrument 0 \"orders\", view 0 at config:4:1) may have " \
    "4 sets of attributes, and its limit is 3: raise it, keep fewer keys, or lower the budgets and the spare of " \
    "instrument 0 \"orders\" to 3 recordings together"
static const char LIMIT[] = FEW_SETS;
static const char TOO_OFTEN[] =
    "catalogue:4:1: instrument 0 \"orders\": its budgets and its spare are 92233720368547759 recordings together, and at "
    "most 92233720368547758 are safe: how far two sums are apart may be 18446744073709551800, above 18446744073709551615";
static const char NO_CERTIFICATE[] =
    "certificate: the tables are not those of a certificate: it was altered, or is of another format; make it anew";
static const char OTHER_CERTIFICATE[] =
    "certificate: the certificate is of other files, or was altered: the budgets and the spare of an instrument are another "
    "number than it says, or too many (instrument 0); make it anew";

/* Remarks: a view that does not fit, and, of a smaller pair, what keeps it from being opened. */
static const char REMARKS[] =
    "config:7:1: view 0 selects instrument 2 \"queue\" and names an aggregation that does not fit it: a gauge has no sum\n";
static const char LIMIT_REMARK[] = FEW_SETS "\n";

#define FAULT_TEXT(told) .answer = WORMWEEKLY_FAULT, .numbers = { 0, 0, 0, sizeof(told) - 1 }, .text = (told)

/* Texts that open nothing, too few handles, and handles that are opened anew. */
static const struct row OPENING_ROWS[] = {
    { CALL(open), .catalogue = "format = \xff", .config = CONFIG, ALL_HANDLES, .answer = WORMWEEKLY_NO_TEXT },
    { CALL(open), .catalogue = CATALOGUE, .config = "\xff", ALL_HANDLES, .answer = WORMWEEKLY_NO_TEXT },
    { CALL(open), .catalogue = "format = 4\n", .config = CONFIG, ALL_HANDLES, FAULT_TEXT(BAD_FORMAT) },
    { CALL(open), .catalogue = "format = 4\n", .config = CONFIG, .is_short = 1, .answer = WORMWEEKLY_FAULT,
      .numbers = { 0, 0, 0, sizeof BAD_FORMAT - 1 }, .text = "c" },
    { CALL(open), .catalogue = MISSPELLED, .config = "format = 1\n[[reader]]\n", ALL_HANDLES, FAULT_TEXT(BAD_KIND) },
    { CALL(open), .catalogue = TILL, .config = "format = 1\n[[reader]]\n", ALL_HANDLES, FAULT_TEXT(NO_NAME) },
    { CALL(open), .catalogue = TILL, .config = TWO_VIEWS, ALL_HANDLES, FAULT_TEXT(COLLISION) },
    { CALL(open), .catalogue = TILL, .config = LOW_LIMIT, ALL_HANDLES, FAULT_TEXT(LIMIT) },
    { CALL(open), .catalogue = RICH_TILL, .config = TILL_CONFIG, ALL_HANDLES, FAULT_TEXT(TOO_OFTEN) },
    { CALL(open), .catalogue = CATALOGUE, .config = CONFIG, .answer = WORMWEEKLY_TOO_SHORT,
      .numbers = { INSTRUMENTS, RECORDERS, READERS } },
    { CALL(open), .catalogue = CATALOGUE, .config = CONFIG, .handles = { INSTRUMENTS - 1, RECORDERS, READERS },
      .answer = WORMWEEKLY_TOO_SHORT, .numbers = { INSTRUMENTS, RECORDERS, READERS } },
    { CALL(open), .catalogue = CATALOGUE, .config = CONFIG, .handles = { INSTRUMENTS, RECORDERS - 1, READERS },
      .answer = WORMWEEKLY_TOO_SHORT, .numbers = { INSTRUMENTS, RECORDERS, READERS } },
    { CALL(open), .catalogue = CATALOGUE, .config = CONFIG, .handles = { INSTRUMENTS, RECORDERS, READERS - 1 },
      .answer = WORMWEEKLY_TOO_SHORT, .numbers = { INSTRUMENTS, RECORDERS, READERS } },
    { CALL(record), .texts = "countrydepaid", GIVEN(PAID), .answer = WORMWEEKLY_NOT_OPEN },
    { CALL(open_certified), .catalogue = TILL, .config = TILL_CONFIG, .certificate = "format = \xff", ALL_HANDLES,
      .answer = WORMWEEKLY_NO_TEXT },
    { CALL(open_certified), .catalogue = TILL, .config = TILL_CONFIG, .certificate = "format = 3\n", ALL_HANDLES,
      FAULT_TEXT(NO_CERTIFICATE) },
    { CALL(open_certified), .catalogue = TILL, .config = TILL_CONFIG, .certificate = WRONG_CERTIFICATE, ALL_HANDLES,
      FAULT_TEXT(OTHER_CERTIFICATE) },
    { CALL(open_certified), .catalogue = TILL, .config = "format = 1\n[[reader]]\n", .certificate = CERTIFICATE, ALL_HANDLES,
      FAULT_TEXT(NO_NAME) },
    { CALL(lint), .catalogue = CATALOGUE, .config = CONFIG, .text = REMARKS },
    { CALL(lint), .catalogue = CATALOGUE, .config = CONFIG, .is_short = 1, .answer = WORMWEEKLY_TOO_SHORT,
      .numbers = { sizeof REMARKS - 1 } },
    { CALL(lint), .catalogue = TILL, .config = TILL_CONFIG, .text = "" },
    { CALL(lint), .catalogue = TILL, .config = LOW_LIMIT, .text = LIMIT_REMARK },
    { CALL(lint), .catalogue = MISSPELLED, .config = CONFIG, .answer = WORMWEEKLY_FAULT,
      .numbers = { sizeof BAD_KIND - 1 }, .text = BAD_KIND },
    { CALL(lint), .catalogue = TILL, .config = "format = 1\n[[reader]]\n", .is_short = 1, .answer = WORMWEEKLY_FAULT,
      .numbers = { sizeof NO_NAME - 1 }, .text = "c" },
    { CALL(lint), .catalogue = "\xff", .config = CONFIG, .answer = WORMWEEKLY_NO_TEXT, .numbers = { 9 } },
    { CALL(lint), .catalogue = TILL, .config = "\xff", .answer = WORMWEEKLY_NO_TEXT, .numbers = { 9 } },
    { CALL(open_certified), .catalogue = TILL, .config = TILL_CONFIG, .certificate = CERTIFICATE,
      .answer = WORMWEEKLY_TOO_SHORT, .numbers = { 1, 1, 1 } },
    { CALL(open_certified), .catalogue = TILL, .config = TILL_CONFIG, .certificate = CERTIFICATE,
      ALL_HANDLES, .numbers = { 1, 1, 1 } },
    { CALL(name), .kind = 2, .text = "till" },
    { CALL(reader_name), .kind = 2, .text = "till" },
    { CALL(open), .catalogue = CATALOGUE, .config = CONFIG, ALL_HANDLES, .answer = WORMWEEKLY_OPEN },
    { CALL(open), .catalogue = CATALOGUE, .config = CONFIG, .handles = { 1, 0, 0 }, .answer = WORMWEEKLY_OPEN },
    { CALL(open), .catalogue = CATALOGUE, .config = CONFIG, .handles = { 0, 1, 0 }, .answer = WORMWEEKLY_OPEN },
    { CALL(open), .catalogue = CATALOGUE, .config = CONFIG, .handles = { 0, 0, 1 }, .answer = WORMWEEKLY_OPEN },
    { CALL(open_certified), .catalogue = TILL, .config = TILL_CONFIG, .certificate = CERTIFICATE, ALL_HANDLES,
      .answer = WORMWEEKLY_OPEN },
    { CALL(reader_name), .kind = 3, .text = "console" },
    { CALL(free_handles), .handles = { 1, 1, 1 } },
    { CALL(open), .catalogue = CATALOGUE, .config = "format = 1\n", ALL_HANDLES,
      .numbers = { INSTRUMENTS, RECORDERS, 0 } },
    { CALL(free_handles), ALL_HANDLES },
    { CALL(open), .catalogue = CATALOGUE, .config = CONFIG, ALL_HANDLES,
      .numbers = { INSTRUMENTS, RECORDERS, READERS } },
    { CALL(open), .catalogue = CATALOGUE, .config = CONFIG, SECOND_RUN, ALL_HANDLES,
      .numbers = { INSTRUMENTS, RECORDERS, READERS } },
};

/* An up-down counter with two keys, by a cumulative reader. */
static const struct row ORDERS_ROWS[] = {
    { CALL(batch), .answer = WORMWEEKLY_UNKNOWN },
    { CALL(text), .text = "" },
    { CALL(expose) },
    { CALL(expose), .reader = CHANGES, .answer = WORMWEEKLY_FAULT, .numbers = { 19 }, .text = "1 Delta of stream 4" },
    { CALL(expose), .reader = CHANGES, .is_short = 1, .answer = WORMWEEKLY_FAULT, .numbers = { 19 }, .text = "1" },
    { CALL(prometheus), .text = "" },
    { CALL(prometheus), .kind = 1, .text = "" },
    { CALL(otlp), .texts = "service.nameshop", GIVEN(SERVICE), .text = "" },
    { CALL(otlp), .kind = 1, .texts = "service.nameshop", GIVEN(SERVICE), .text = "" },
    { CALL(record), .texts = "countrydepaid", GIVEN(PAID), .value = 5 },
    { CALL(record), .recorder = NIGHT, .texts = "countrydepaid", GIVEN(PAID), .value = 10 },
    { CALL(record), .texts = "country\xff\xfepaid", GIVEN(PAID), .answer = WORMWEEKLY_NO_TEXT },
    { CALL(record), .texts = "country", GIVEN(PAID), .answer = WORMWEEKLY_NO_TEXT },
    { CALL(record), .texts = "countryde", GIVEN(LONG_KEY), .answer = WORMWEEKLY_NO_TEXT },
    { CALL(record), .texts = "countryde", GIVEN(LONG_TEXT), .answer = WORMWEEKLY_NO_TEXT },
    { CALL(record), .texts = "countryde", GIVEN(NO_KIND), .answer = WORMWEEKLY_NO_TEXT },
    { CALL(record), .texts = "countrydecountryfr", GIVEN(TWICE), .answer = WORMWEEKLY_DUPLICATE_KEY },
    { CALL(record), .texts = "countrydepait", GIVEN(PAID), .answer = WORMWEEKLY_UNKNOWN_KEY },
    { CALL(record), .texts = "abcdefghi", GIVEN(NINE), .answer = WORMWEEKLY_UNKNOWN_KEY },
    { CALL(record), .texts = "abcdefgh", GIVEN(NINE), .answer = WORMWEEKLY_NO_TEXT },
    { CALL(record), .texts = KEYS_65, GIVEN(KEYS), .answer = WORMWEEKLY_UNKNOWN_KEY },
    { CALL(record), .texts = KEYS_64 "A", GIVEN(KEYS), .answer = WORMWEEKLY_DUPLICATE_KEY },
    { CALL(record), .texts = KEYS_64, GIVEN(KEYS), .answer = WORMWEEKLY_NO_TEXT },
    { CALL(record), .texts = "countryukpaid", GIVEN(PAID), .answer = WORMWEEKLY_UNKNOWN_VALUE },
    { CALL(record), .texts = "countrydepaid", GIVEN(UNPAID), .answer = WORMWEEKLY_UNKNOWN_VALUE },
    { CALL(record), .texts = "countryde", GIVEN(COUNTRY), .answer = WORMWEEKLY_MISSING_KEY },
    { CALL(record), .texts = "countrydepaid", GIVEN(PAID_7), .answer = WORMWEEKLY_COMBINATION },
    { CALL(record), .texts = "countrydepaid", GIVEN(PAID), .value = 101, .answer = WORMWEEKLY_VALUE_RANGE },
    { CALL(record), .recorder = RECORDERS, .texts = "countrydepaid", GIVEN(PAID), .answer = WORMWEEKLY_STRANGER },
    { CALL(explain), .texts = "countrydecountryfr", GIVEN(TWICE), .text = "orders: key \"country\" stands twice" },
    { CALL(explain), .texts = "countrydepait", GIVEN(PAID), .text = "orders: key \"pait\" is not declared" },
    { CALL(explain), .texts = "abcdefghi", GIVEN(NINE), .text = "orders: key \"a\" is not declared" },
    { CALL(explain), .texts = KEYS_65, GIVEN(KEYS), .text = "orders: key \"A\" is not declared" },
    { CALL(explain), .texts = KEYS_64 "A", GIVEN(KEYS), .text = "orders: key \"A\" stands twice" },
    { CALL(explain), .texts = "countryukpaid", GIVEN(PAID), .text = "orders: key \"country\" has no value \"uk\"" },
    { CALL(explain), .texts = "country\x1b[paid", GIVEN(PAID), .text = "orders: key \"country\" has no value \"\\u{1b}[\"" },
    { CALL(explain), .texts = "countrydepaid", GIVEN(UNPAID), .text = "orders: key \"paid\" has no value false" },
    { CALL(explain), .texts = "countryde", GIVEN(COUNTRY), .text = "orders: key \"paid\" is missing" },
    { CALL(explain), .texts = "countrydepaid", GIVEN(PAID_7), .text = "orders: the values are not allowed together" },
    { CALL(explain), .texts = "countrydepaid", GIVEN(PAID), .value = 101,
      .text = "orders: value 101 is not in the range from -100 to 100" },
    { CALL(explain), .texts = "countrydepaid", GIVEN(PAID), .value = 101, .is_short = 1,
      .answer = WORMWEEKLY_TOO_SHORT, .numbers = { 54 } },
    { CALL(explain), .texts = "countrydepaid", GIVEN(PAID), .value = -100, .text = "" },
    { CALL(explain), .number = QUEUE, .texts = "countrydepaid", GIVEN(PAID), .text = "queue: key \"country\" is not declared" },
    { CALL(explain), .number = INSTRUMENTS, .texts = "countrydepaid", GIVEN(PAID), .text = "there is no instrument 3" },
    { CALL(explain), .texts = "country", GIVEN(PAID), .answer = WORMWEEKLY_NO_TEXT, .numbers = { 9 } },
    { CALL(explain), .texts = "countryde", GIVEN(NO_KIND), .answer = WORMWEEKLY_NO_TEXT, .numbers = { 9 } },
    { CALL(prepare), .texts = "countryfrpaid", GIVEN(PAID_7), .numbers = { 2, 2 } },
    { CALL(prepare), .texts = "countryfrpaid", GIVEN(PAID), .numbers = { 2, 1 } },
    { CALL(prepare), .texts = "country", GIVEN(PAID), .answer = WORMWEEKLY_NO_TEXT, .numbers = { 2, 1 } },
    { CALL(prepare), .texts = "abcdefghi", GIVEN(NINE), .answer = WORMWEEKLY_UNKNOWN_KEY, .numbers = { 2, 1 } },
    { CALL(prepare), .texts = KEYS_65, GIVEN(KEYS), .answer = WORMWEEKLY_UNKNOWN_KEY, .numbers = { 2, 1 } },
    { CALL(prepare), .texts = KEYS_64 "A", GIVEN(KEYS), .answer = WORMWEEKLY_DUPLICATE_KEY, .numbers = { 2, 1 } },
    { CALL(prepare), .number = INSTRUMENTS, .texts = "countryfrpaid", GIVEN(PAID),
      .answer = WORMWEEKLY_UNKNOWN_INSTRUMENT, .numbers = { 2, 1 } },
    { CALL(prepare), .texts = "countrydepaid", GIVEN(PAID_7), .answer = WORMWEEKLY_COMBINATION, .numbers = { 2, 1 } },
    { CALL(prepare), .texts = "countryfr", GIVEN(COUNTRY), .answer = WORMWEEKLY_MISSING_KEY, .numbers = { 2, 1 } },
    { CALL(prepare), .texts = "countrxfrpaid", GIVEN(PAID), .answer = WORMWEEKLY_UNKNOWN_KEY, .numbers = { 2, 1 } },
    { CALL(prepare), .texts = "country\xff\xffpaid", GIVEN(PAID), .answer = WORMWEEKLY_NO_TEXT, .numbers = { 2, 1 } },
    { CALL(prepare), .texts = "paidcountryde", GIVEN(PAID_FIRST), .numbers = { 1, 1 } },
    { CALL(prepare), .texts = "countryfrpaid\xff", GIVEN(PAID), .numbers = { 2, 1 } },
    { CALL(record_written), .entry = 2, .amount = 1, .value = -50 },
    { CALL(record_written), .entry = 2, .amount = 2, .value = 101, .answer = WORMWEEKLY_VALUE_RANGE },
    { CALL(record_written), .entry = 1, .amount = 2, .answer = WORMWEEKLY_COMBINATION },
    { CALL(record_written), .entry = 1, .answer = WORMWEEKLY_UNKNOWN_VALUE },
    { CALL(record_written), .entry = 3, .amount = 1, .answer = WORMWEEKLY_UNKNOWN_VALUE },
    { CALL(record_prepared), .value = -101, .answer = WORMWEEKLY_VALUE_RANGE },
    { CALL(record_forged), .key = 0, .entry = UINT16_MAX, .answer = WORMWEEKLY_UNKNOWN_VALUE },
    { CALL(record_list), .value = -101, .answer = WORMWEEKLY_VALUE_RANGE },
    { CALL(record_list), .value = -50, .numbers = { 2 } },
    { CALL(collect), .reader = READERS, .time = 9, .answer = WORMWEEKLY_STRANGER },
    { CALL(collect), .time = 9 },
    { CALL(batch), .numbers = { ORDERS, 1, 3, 9 } },
    { CALL(text), .text = ORDERS_TEXT },
    { CALL(text), .is_short = 1, .answer = WORMWEEKLY_TOO_SHORT, .numbers = { sizeof ORDERS_TEXT - 1 } },
    { CALL(otlp), .texts = "service.nameshop", GIVEN(SERVICE), .text = ORDERS_REQUEST },
    { CALL(otlp), .texts = "service.nameshop", GIVEN(SERVICE), .is_short = 1, .answer = WORMWEEKLY_TOO_SHORT,
      .numbers = { (sizeof ORDERS_REQUEST - 1) / 2 } },
    { CALL(otlp), .kind = 1, .texts = "service.nameshop", GIVEN(SERVICE), .text = ORDERS_LINE },
    { CALL(otlp), .kind = 1, .texts = "service.nameshop", GIVEN(SERVICE), .is_short = 1,
      .answer = WORMWEEKLY_TOO_SHORT, .numbers = { sizeof ORDERS_LINE - 1 } },
    { CALL(otlp), .kind = 2, .texts = "service.nameshop", GIVEN(SERVICE), .answer = WORMWEEKLY_UNKNOWN },
    { CALL(otlp), .kind = 2, .texts = "service.name", GIVEN(SERVICE), .answer = WORMWEEKLY_NO_TEXT },
    { CALL(otlp), .texts = "service.nameshopservice.nameshop", GIVEN(SERVICE_TWICE),
      .answer = WORMWEEKLY_DUPLICATE_KEY },
    { CALL(otlp), .texts = "a", GIVEN(NO_KEY), .answer = WORMWEEKLY_EMPTY_KEY },
    { CALL(otlp), .texts = "a", GIVEN(MANY), .answer = WORMWEEKLY_TOO_MANY },
    { CALL(prometheus), .text = ORDERS_PAGE },
    { CALL(prometheus), .kind = 1, .text = ORDERS_OPEN_PAGE },
    { CALL(prometheus), .kind = 2, .text = ORDERS_OPEN_PAGE },
    { CALL(prometheus), .kind = 3, .answer = WORMWEEKLY_UNKNOWN },
    { CALL(prometheus), .is_short = 1, .answer = WORMWEEKLY_TOO_SHORT, .numbers = { sizeof ORDERS_PAGE - 1 } },
    { CALL(stream), .numbers = { 0, 1, 0, 0, 0, 2 } },
    { CALL(stream), .stream = 1, .answer = WORMWEEKLY_UNKNOWN },
    { CALL(stream), .stream = SIZE_MAX, .answer = WORMWEEKLY_UNKNOWN },
    { CALL(point), .point = 1, .numbers = { 2, 1, 1, 0, 1, -150, 0, 0, 0 } },
    { CALL(point), .point = 2, .answer = WORMWEEKLY_UNKNOWN },
    { CALL(point), .stream = 1, .answer = WORMWEEKLY_UNKNOWN },
    { CALL(stream_text), .kind = 0, .text = "orders" },
    { CALL(stream_text), .kind = 0, .is_short = 1, .answer = WORMWEEKLY_TOO_SHORT, .numbers = { 6 } },
    { CALL(stream_text), .kind = 1, .text = "EUR" },
    { CALL(stream_text), .kind = 2, .text = "what was paid" },
    { CALL(stream_text), .kind = 3, .text = "shop" },
    { CALL(stream_text), .kind = 4, .text = "2" },
    { CALL(stream_text), .kind = 5, .text = "https://shop.example" },
    { CALL(stream_text), .kind = 6, .answer = WORMWEEKLY_UNKNOWN },
    { CALL(stream_text), .stream = 1, .answer = WORMWEEKLY_UNKNOWN },
    { CALL(key), .key = 0, .text = "country" },
    { CALL(key), .key = 0, .is_short = 1, .answer = WORMWEEKLY_TOO_SHORT, .numbers = { 7 } },
    { CALL(key), .key = 1, .text = "paid" },
    { CALL(key), .key = 2, .answer = WORMWEEKLY_UNKNOWN },
    { CALL(value), .key = 0, .entry = 2, .numbers = { WORMWEEKLY_TEXT, 2, 0 }, .text = "fr" },
    { CALL(value), .key = 0, .entry = 2, .is_short = 1, .answer = WORMWEEKLY_TOO_SHORT,
      .numbers = { WORMWEEKLY_TEXT, 2, 0 } },
    { CALL(value), .key = 1, .entry = 1, .numbers = { WORMWEEKLY_YES, 0, 0 } },
    { CALL(value), .key = 1, .entry = 2, .numbers = { WORMWEEKLY_WHOLE, 0, 7 } },
    { CALL(value), .key = 0, .entry = 0, .answer = WORMWEEKLY_UNKNOWN, .numbers = { 9, 9, 9 } },
    { CALL(value), .key = 0, .entry = 3, .answer = WORMWEEKLY_UNKNOWN, .numbers = { 9, 9, 9 } },
    { CALL(boundaries), .is_short = 1 },
    { CALL(buckets), .is_short = 1 },
    { CALL(budget), .numbers = { 5, 0, 4, 1 } },
    { CALL(budget), .recorder = NIGHT, .numbers = { 6, 0, 1, 5 } },
    { CALL(budget), .recorder = RECORDERS, .answer = WORMWEEKLY_STRANGER },
    { CALL(budget), .instrument = INSTRUMENTS, .answer = WORMWEEKLY_STRANGER },
    { CALL(spare), .numbers = { 0, 0, 0 } },
    { CALL(headrooms), .instrument = ORDERS, .numbers = { 11, 92233720368547758, 1, 0 } },
    { CALL(headrooms), .instrument = ARTICLES, .recorder = NIGHT, .numbers = { 5, 92233720368547758, 3, 0 } },
    { CALL(headrooms), .instrument = QUEUE, .numbers = { 3, 2049638230412172401, 1, 0 } },
    { CALL(headrooms), .is_short = 1, .answer = WORMWEEKLY_TOO_SHORT },
    { CALL(ask), .amount = 1, .answer = WORMWEEKLY_NO_SPARE },
    { CALL(ask), .recorder = RECORDERS, .answer = WORMWEEKLY_STRANGER },
    { CALL(settle), .recorder = DAY, .handles.recorders = 1, .answer = WORMWEEKLY_RECORDER_MISSING },
    { CALL(settle), .recorder = NIGHT, .handles.recorders = 2, .answer = WORMWEEKLY_STRANGER },
    { CALL(settle), ALL_RECORDERS, .numbers = { 5, 1, 0, 135 } },
    { CALL(grant), .number = DAY, .amount = 0 },
    { CALL(close) },
    { CALL(close), .answer = WORMWEEKLY_CLOSED },
    { CALL(record), .texts = "countrydepaid", GIVEN(PAID), .answer = WORMWEEKLY_CLOSED },
    { CALL(grant), .number = DAY, .amount = 0, .answer = WORMWEEKLY_CLOSED },
    { CALL(ask), .amount = 0, .answer = WORMWEEKLY_CLOSED },
    { CALL(budget), .numbers = { 5, 0, 4, 1 } },
    { CALL(settle), ALL_RECORDERS, .numbers = { 5, 1, 0, 135 } },
};

/* A histogram with a spare budget, by a delta reader. */
static const struct row ARTICLES_ROWS[] = {
    { CALL(record), .instrument = ARTICLES, .texts = "countryde", GIVEN(COUNTRY), .value = 5 },
    { CALL(prepare), .number = ARTICLES, .texts = "countryde", GIVEN(COUNTRY), .numbers = { 1, 0 } },
    { CALL(record_list), .instrument = ARTICLES, .value = 50, .numbers = { 2 } },
    { CALL(collect), .instrument = ARTICLES, .reader = CHANGES, .time = 9 },
    { CALL(batch), .reader = CHANGES, .numbers = { ARTICLES, 1, 3, 9 } },
    { CALL(stream), .reader = CHANGES, .numbers = { 4, 2, 2, 1, 2, 1 } },
    { CALL(point), .reader = CHANGES, .numbers = { 1, 0, 1, 3, 1, 105, 5, 50, 3 } },
    { CALL(boundaries), .reader = CHANGES, .numbers = { 10, 20 } },
    { CALL(boundaries), .reader = CHANGES, .is_short = 1, .answer = WORMWEEKLY_TOO_SHORT },
    { CALL(boundaries), .reader = CHANGES, .stream = 1, .answer = WORMWEEKLY_UNKNOWN },
    { CALL(buckets), .reader = CHANGES, .numbers = { 1, 0, 2 } },
    { CALL(buckets), .reader = CHANGES, .is_short = 1, .answer = WORMWEEKLY_TOO_SHORT },
    { CALL(buckets), .reader = CHANGES, .point = 1, .answer = WORMWEEKLY_UNKNOWN },
    { CALL(buckets), .reader = CHANGES, .stream = 1, .answer = WORMWEEKLY_UNKNOWN },
    { CALL(record), .instrument = ARTICLES, .texts = "countryde", GIVEN(COUNTRY), .answer = WORMWEEKLY_BUDGET },
    { CALL(grant), .instrument = ARTICLES, .number = RECORDERS, .amount = 1, .answer = WORMWEEKLY_UNKNOWN_RECORDER },
    { CALL(grant), .instrument = ARTICLES, .number = DAY, .amount = 3, .answer = WORMWEEKLY_NO_SPARE },
    { CALL(ask), .instrument = ARTICLES, .recorder = NIGHT, .amount = 3, .answer = WORMWEEKLY_NO_SPARE },
    { CALL(spare), .instrument = ARTICLES, .numbers = { 2, 0, 2 } },
    { CALL(budget), .instrument = ARTICLES, .recorder = NIGHT, .numbers = { 0, 0, 0, 0 } },
    { CALL(grant), .instrument = ARTICLES, .number = DAY, .amount = 1 },
    { CALL(ask), .instrument = ARTICLES, .recorder = NIGHT, .amount = 1 },
    { CALL(spare), .instrument = ARTICLES, .numbers = { 2, 2, 0 } },
    { CALL(budget), .instrument = ARTICLES, .numbers = { 3, 1, 3, 1 } },
    { CALL(budget), .instrument = ARTICLES, .recorder = NIGHT, .numbers = { 0, 1, 0, 1 } },
    { CALL(record_list), .instrument = ARTICLES, .value = 7, .answer = WORMWEEKLY_BUDGET, .numbers = { 1 } },
    { CALL(collect), .instrument = ARTICLES, .reader = CHANGES, .time = 12 },
    { CALL(batch), .reader = CHANGES, .numbers = { ARTICLES, 1, 9, 12 } },
    { CALL(point), .reader = CHANGES, .numbers = { 1, 0, 1, 1, 1, 7, 7, 7, 3 } },
    { CALL(budget), .instrument = ARTICLES, .numbers = { 3, 1, 4, 0 } },
    { CALL(settle), .instrument = ARTICLES, ALL_RECORDERS, .numbers = { 4, 0, 0, 112 } },
};

/* A gauge without keys; names and warnings. */
static const struct row QUEUE_ROWS[] = {
    { CALL(record), .instrument = QUEUE, .texts = "", .given = NONE, .value = 8 },
    { CALL(prepare), .number = QUEUE, .texts = "", .given = NONE },
    { CALL(record_list), .instrument = QUEUE, .value = 9, .numbers = { 2 } },
    { CALL(collect), .instrument = QUEUE, .time = 15 },
    { CALL(stream), .numbers = { 2, 3, 1, 0, 0, 1 } },
    { CALL(point), .numbers = { 0, 0, 1, 0, 1, 9, 0, 0, 0 } },
    { CALL(settle), .instrument = QUEUE, ALL_RECORDERS, .numbers = { 3, 0, 0, 26 } },
    { CALL(name), .kind = 0, .number = QUEUE, .text = "queue" },
    { CALL(name), .kind = 0, .number = QUEUE, .is_short = 1, .answer = WORMWEEKLY_TOO_SHORT, .numbers = { 5 } },
    { CALL(name), .kind = 0, .number = INSTRUMENTS, .answer = WORMWEEKLY_UNKNOWN },
    { CALL(name), .kind = 1, .number = QUEUE, .text = "shop" },
    { CALL(name), .kind = 2, .number = NIGHT, .text = "night" },
    { CALL(name), .kind = 3, .number = CHANGES, .text = "changes" },
    { CALL(name), .kind = 3, .number = UINT32_MAX, .answer = WORMWEEKLY_UNKNOWN },
    { CALL(name), .kind = 4, .answer = WORMWEEKLY_UNKNOWN },
    { CALL(range), .number = ORDERS, .numbers = { -100, 100 } },
    { CALL(range), .number = ARTICLES, .numbers = { 0, 100 } },
    { CALL(range), .recorder = NIGHT, .number = QUEUE, .numbers = { 0, 9 } },
    { CALL(range), .number = INSTRUMENTS, .answer = WORMWEEKLY_UNKNOWN },
    { CALL(range), .number = UINT32_MAX, .answer = WORMWEEKLY_UNKNOWN },
    { CALL(plan_stream), .stream = 0, .numbers = { ORDERS, CONSOLE, 1, 0, 0 } },
    { CALL(plan_stream), .stream = 2, .numbers = { QUEUE, CONSOLE, 3, 1, 0 } },
    { CALL(plan_stream), .recorder = NIGHT, .stream = 4, .numbers = { ARTICLES, CHANGES, 2, 2, 1 } },
    { CALL(plan_stream), .stream = 6, .answer = WORMWEEKLY_UNKNOWN },
    { CALL(plan_stream), .stream = SIZE_MAX, .answer = WORMWEEKLY_UNKNOWN },
    { CALL(warnings), .text = WARNINGS },
    { CALL(warnings), .is_short = 1, .answer = WORMWEEKLY_TOO_SHORT, .numbers = { sizeof WARNINGS - 1 } },
};

/* A resource in a page, for which no handle is asked. */
static const struct row TARGET_ROWS[] = {
    { CALL(prometheus_target), .texts = "service.nameshop", GIVEN(SERVICE), .text = TARGET },
    { CALL(prometheus_target), .kind = 1, .texts = "service.nameshop", GIVEN(SERVICE), .text = OPEN_TARGET },
    { CALL(prometheus_target), .kind = 2, .texts = "service.nameshop", GIVEN(SERVICE), .text = OPEN_TARGET },
    { CALL(prometheus_target), .texts = "", .given = NONE, .text = "" },
    { CALL(prometheus_target), .texts = "service.nameshop", GIVEN(SERVICE), .is_short = 1,
      .answer = WORMWEEKLY_TOO_SHORT, .numbers = { sizeof TARGET - 1 } },
    { CALL(prometheus_target), .kind = 3, .texts = "service.name", GIVEN(SERVICE), .answer = WORMWEEKLY_UNKNOWN },
    { CALL(prometheus_target), .texts = "service.name", GIVEN(SERVICE), .answer = WORMWEEKLY_NO_TEXT },
    { CALL(prometheus_target), .texts = "service.nameshopservice.nameshop", GIVEN(SERVICE_TWICE),
      .answer = WORMWEEKLY_DUPLICATE_KEY },
    { CALL(prometheus_target), .texts = "a", GIVEN(NO_KEY), .answer = WORMWEEKLY_EMPTY_KEY },
    { CALL(prometheus_target), .texts = "a", GIVEN(MANY), .answer = WORMWEEKLY_TOO_MANY },
    { CALL(prometheus_target), .texts = "a.b1a_b2", GIVEN(ONE_LABEL), .answer = WORMWEEKLY_LABEL_COLLISION },
    { CALL(prometheus_target), .texts = "...1a_b2", GIVEN(ONE_LABEL), .answer = WORMWEEKLY_BAD_LABEL },
    { CALL(prometheus_target), .texts = "a.b1a_c2", GIVEN(ONE_LABEL), .text = TWO_LABELS },
};

#define MEANS(head) CALL(expect), .kind = 1, .texts = "shoporders" head
#define OTHER(said) .answer = WORMWEEKLY_FAULT, .numbers = { sizeof(said) - 1 }, .text = (said)

/* Whether instruments mean what a host was made for. */
static const struct row MEANING_ROWS[] = {
    { MEANS("EURcountrydecountryfrpaidpaid"), GIVEN(MEANT) },
    { MEANS("EURcountrydepaid"), GIVEN(MEANT_FRONT) },
    { MEANS("EURcountrydecountryfrpaidpaid"), GIVEN(MEANT), .amount = 1 << 2 },
    { CALL(expect), .number = QUEUE, .kind = 3, .texts = "shopqueue", GIVEN(QUEUE_MEANT) },
    { CALL(expect), .number = QUEUE, .kind = 3, .texts = "shopqueueshiftearly", GIVEN(SHIFT_MEANT), .amount = 1 },
    { CALL(expect), .number = QUEUE, .kind = 3, .texts = "shopqueueshiftearly", GIVEN(SHIFT_MEANT),
      OTHER("shop/queue: key \"shift\" may be left out") },
    { MEANS("EURcountryfrcountrydepaidpaid"), GIVEN(MEANT), OTHER("shop/orders: key \"country\" has no value \"fr\" at place 1") },
    { MEANS("EURcountrydecountryukpaidpaid"), GIVEN(MEANT), OTHER("shop/orders: key \"country\" has no value \"uk\" at place 2") },
    { MEANS("EURcountrydecountryukpaidpaid"), GIVEN(MEANT), .is_short = 1, .answer = WORMWEEKLY_FAULT, .numbers = { 55 },
      .text = "s" },
    { MEANS("EURcountrydecountryfrcountryukpaid"), GIVEN(MEANT_3), OTHER("shop/orders: key \"country\" has no value \"uk\" at place 3") },
    { MEANS("EURcountrydpaid"), GIVEN(SHORT_VALUE), OTHER("shop/orders: key \"country\" has no value \"d\" at place 1") },
    { MEANS("EURcountrydepaid"), GIVEN(MEANT_8), OTHER("shop/orders: key \"paid\" has no value 7 at place 1") },
    { MEANS("EURcountrydepaid"), GIVEN(MEANT_FRONT), .amount = 1, OTHER("shop/orders: key \"country\" may not be left out") },
    { MEANS("EURpaidcountryde"), GIVEN(PAID_MEANT), OTHER("shop/orders: key \"country\" stands in place of \"paid\"") },
    { MEANS("EURcountrydepaidcoupon"), GIVEN(MEANT_MORE), OTHER("shop/orders: it has no key \"coupon\"") },
    { MEANS("EUR"), GIVEN(BARE), OTHER("shop/orders: key \"country\" is not asked for, and may not be left out") },
    { MEANS("USDcountrydepaid"), GIVEN(MEANT_FRONT), OTHER("shop/orders: its unit is \"EUR\"") },
    { CALL(expect), .texts = "shopordersEURcountrydepaid", GIVEN(MEANT_FRONT), OTHER("shop/orders: it is an up-down counter") },
    { CALL(expect), .kind = 1, .texts = "shoporderzEURcountrydepaid", GIVEN(MEANT_FRONT), OTHER("shop/orderz: its name is \"orders\"") },
    { CALL(expect), .kind = 1, .texts = "sh\npordersEURcountrydepaid", GIVEN(MEANT_FRONT), OTHER("sh p/orders: its meter is \"shop\"") },
    { CALL(expect), .kind = 1, .number = INSTRUMENTS, .texts = "shopordersEUR", GIVEN(BARE), .answer = WORMWEEKLY_UNKNOWN },
    { CALL(expect), .kind = 4, .texts = "shopordersEUR", GIVEN(BARE), .answer = WORMWEEKLY_NO_TEXT },
    { CALL(expect), .kind = 1, .texts = "shoporders", GIVEN(BARE), .answer = WORMWEEKLY_NO_TEXT },
    { CALL(expect), .kind = 1, .texts = "shop\xffrdersEUR", GIVEN(BARE), .answer = WORMWEEKLY_NO_TEXT },
    { CALL(expect), .kind = 1, .texts = "shoporders", GIVEN(TWO_TEXTS), .answer = WORMWEEKLY_NO_TEXT },
    { CALL(expect), .kind = 1, .texts = "shoporders", GIVEN(NO_UNIT), .answer = WORMWEEKLY_NO_TEXT },
    { CALL(expect), .kind = 1, .texts = "shopordersEUR", GIVEN(KEYED), .answer = WORMWEEKLY_NO_TEXT },
};

/* What handles hold that were returned to their places. */
static const struct row RETURNED_ROWS[] = {
    { CALL(settle), .instrument = QUEUE, ALL_RECORDERS, .numbers = { 3, 0, 0, 26 } },
    { CALL(stream), .numbers = { 2, 3, 1, 0, 0, 1 } },
};

/* Where a recorder and a reader were freed. */
static const struct row FREED_ROWS[] = {
    { CALL(record), .recorder = NIGHT, .texts = "countrydepaid", GIVEN(PAID) },
    { CALL(record_prepared), .recorder = NIGHT },
    { CALL(record_list), .recorder = NIGHT },
    { CALL(collect), .reader = CHANGES },
    { CALL(otlp), .reader = CHANGES, .texts = "service.nameshop", GIVEN(SERVICE) },
    { CALL(reader_name), .reader = CHANGES },
    { CALL(ask), .recorder = NIGHT },
    { CALL(explain), .recorder = NIGHT, .texts = "countrydepaid", GIVEN(PAID) },
    { CALL(expect), .recorder = NIGHT, .kind = 1, .texts = "shopordersEUR", GIVEN(BARE) },
    { CALL(range), .recorder = NIGHT },
    { CALL(record_pairs), .recorder = NIGHT, PAIRED(PAIRS) },
    { CALL(prepare_pairs), .recorder = NIGHT, PAIRED(PAIRS) },
    { CALL(page), .reader = CHANGES, .handles.instruments = 1, PAIRED(SERVICE_PAIR) },
    { CALL(plan_stream), .recorder = NIGHT },
    { CALL(budget), .recorder = NIGHT },
    { CALL(headrooms), .recorder = NIGHT },
    { CALL(settle), ALL_RECORDERS },
};

/* Two runs of one plan since one time: what is of one is a stranger to the other. Then the first goes over into the
   next. */
static const struct row TWIN_ROWS[] = {
    { CALL(open), .catalogue = CATALOGUE, .config = CONFIG, ALL_HANDLES,
      .numbers = { INSTRUMENTS, RECORDERS, READERS } },
    { CALL(open), .catalogue = CATALOGUE, .config = CONFIG, SECOND_RUN, ALL_HANDLES,
      .numbers = { INSTRUMENTS, RECORDERS, READERS } },
    { CALL(record), .recorder = RECORDERS, .texts = "countrydepaid", GIVEN(PAID), .value = 5,
      .answer = WORMWEEKLY_STRANGER },
    { CALL(settle), .recorder = RECORDERS, .handles.recorders = RECORDERS, .answer = WORMWEEKLY_STRANGER },
    { CALL(settle), ALL_RECORDERS },
    { CALL(record), .texts = "countrydepaid", GIVEN(PAID), .value = 5 },
    { CALL(next), SECOND_RUN, ALL_HANDLES, .answer = WORMWEEKLY_OPEN, .numbers = { 9, 9, 9 } },
    { CALL(free_handles), SECOND_RUN, ALL_HANDLES },
    { CALL(next), .number = RECORDERS, SECOND_RUN, ALL_HANDLES, .answer = WORMWEEKLY_NOT_OPEN,
      .numbers = { 9, 9, 9 } },
    { CALL(next), .number = NIGHT, SECOND_RUN, .answer = WORMWEEKLY_TOO_SHORT,
      .numbers = { INSTRUMENTS, RECORDERS, READERS } },
    { CALL(next), .number = NIGHT, SECOND_RUN, ALL_HANDLES, .numbers = { INSTRUMENTS, RECORDERS, READERS } },
    { CALL(record), .instrument = INSTRUMENTS, .texts = "countrydepaid", GIVEN(PAID), .value = 5,
      .answer = WORMWEEKLY_STRANGER },
    { CALL(budget), .instrument = INSTRUMENTS, .recorder = RECORDERS, .numbers = { 5, 0, 0, 5 } },
    { CALL(record), .instrument = INSTRUMENTS, .recorder = RECORDERS, .texts = "countrydepaid", GIVEN(PAID),
      .value = 7 },
    { CALL(collect), .instrument = INSTRUMENTS, .reader = READERS, .time = 9 },
    { CALL(batch), .reader = READERS, .numbers = { ORDERS, 1, START + 1, 9 } },
    { CALL(point), .reader = READERS, .numbers = { 1, 1, 1, 0, 1, 7, 0, 0, 0 } },
    { CALL(settle), ALL_RECORDERS, .numbers = { 1, 0, 0, 5 } },
    { CALL(settle), .instrument = INSTRUMENTS, .recorder = RECORDERS, .handles.recorders = RECORDERS,
      .numbers = { 1, 0, 0, 7 } },
};

/* What is packed for other calls, in the second of these runs. */
#define SCOPE "otel_scope_name=\"shop\",otel_scope_version=\"2\",otel_scope_schema_url=\"https://shop.example\"} "
#define FIRST_LINES "# HELP orders_EUR what was paid\n# TYPE orders_EUR gauge\n"
#define LAST_LINES "orders_EUR{country=\"de\",paid=\"true\"," SCOPE "14\norders_EUR{country=\"fr\",paid=\"7\"," SCOPE "2\n"
static const char PAGE[] = FIRST_LINES LAST_LINES;
static const char OPEN_PAGE[] = FIRST_LINES "# UNIT orders_EUR EUR\n" LAST_LINES "# EOF\n";
static const char WITH_TARGET[] = "# HELP target_info Target metadata\n# TYPE target_info gauge\n"
                                  "target_info{service_name=\"shop\"} 1\n" FIRST_LINES LAST_LINES;

static const struct row PAIR_ROWS[] = {
    { CALL(version), .text = WORMWEEKLY_VERSION },
    { CALL(record_pairs), .instrument = INSTRUMENTS, .recorder = RECORDERS, PAIRED(PAIRS), .value = 7 },
    { CALL(record_pairs), .instrument = INSTRUMENTS, .recorder = RECORDERS, PAIRED(PAIRS_7), .value = 2 },
    { CALL(record_pairs), .instrument = INSTRUMENTS, .recorder = RECORDERS, PAIRED(PAIRS_UK),
      .answer = WORMWEEKLY_UNKNOWN_VALUE },
    { CALL(record_pairs), .instrument = INSTRUMENTS, .recorder = RECORDERS, PAIRED(NO_PAIR),
      .answer = WORMWEEKLY_UNKNOWN_KEY },
    { CALL(record_pairs), .instrument = INSTRUMENTS, .recorder = RECORDERS, .answer = WORMWEEKLY_MISSING_KEY },
    { CALL(record_pairs), .instrument = INSTRUMENTS, .recorder = RECORDERS, PAIRED(PAIR_OF_NO_KIND),
      .answer = WORMWEEKLY_NO_TEXT },
    { CALL(record_pairs), .instrument = INSTRUMENTS, .recorder = RECORDERS, PAIRED(MANY_PAIRS),
      .answer = WORMWEEKLY_DUPLICATE_KEY },
    { CALL(record_pairs), .instrument = INSTRUMENTS, .recorder = RECORDERS, PAIRED(LONG_PAIR),
      .answer = WORMWEEKLY_UNKNOWN_VALUE },
    { CALL(prepare_pairs), .recorder = RECORDERS, .number = ORDERS, PAIRED(PAIRS_7), .numbers = { 2, 2 } },
    { CALL(prepare_pairs), .recorder = RECORDERS, .number = ORDERS, PAIRED(LONG_PAIR), .numbers = { 2, 2 },
      .answer = WORMWEEKLY_UNKNOWN_VALUE },
    { CALL(page), .instrument = INSTRUMENTS, .reader = READERS, .handles.instruments = 1, .time = 20, .text = PAGE },
    { CALL(page), .instrument = INSTRUMENTS, .reader = READERS, .handles.instruments = 1, .kind = 1, .amount = 1,
      .numbers = { 0, 101 }, .text = OPEN_PAGE },
    { CALL(page), .instrument = INSTRUMENTS, .reader = READERS, .handles.instruments = INSTRUMENTS, .amount = 1,
      PAIRED(SERVICE_PAIR), .numbers = { 0, 303 }, .text = WITH_TARGET },
    { CALL(page), .instrument = INSTRUMENTS, .reader = READERS, .handles.instruments = 1, .kind = 1, .is_short = 1,
      .answer = WORMWEEKLY_TOO_SHORT, .numbers = { sizeof OPEN_PAGE - 1 } },
    { CALL(page), .instrument = INSTRUMENTS, .reader = READERS, .handles.instruments = 1, .kind = 3,
      .answer = WORMWEEKLY_UNKNOWN },
    { CALL(page), .reader = READERS, .handles.instruments = 1, .answer = WORMWEEKLY_STRANGER },
};

static int passed;

/* Ends the program at a call that is not answered as is wanted. */
static void want(int is_wanted, const struct row *row, const struct told *told) {
    if (is_wanted) {
        passed++;
        return;
    }
    printf("answers.c:%d: %s answers %u and writes", row->line, row->name, told->answer);
    for (int i = 0; i < NUMBERS; i++) {
        printf(" %lld", (long long)told->numbers[i]);
    }
    printf(" \"%s\"\n", told->text ? told->text : "");
    exit(1);
}

static int is_same_text(const char *one, const char *other) {
    return strcmp(one ? one : "", other ? other : "") == 0;
}

static void check(const struct row *rows, size_t length) {
    for (const struct row *row = rows; row < rows + length; row++) {
        struct told told = row->call(row);
        int is_same = told.answer == row->answer && memcmp(told.numbers, row->numbers, sizeof told.numbers) == 0;
        want(is_same && is_same_text(told.text, row->text), row, &told);
    }
}

/* The same calls where handles are null, or of another kind. */
static void check_freed(const struct row *rows, size_t length) {
    for (const struct row *row = rows; row < rows + length; row++) {
        struct told told = row->call(row);
        want(told.answer == WORMWEEKLY_NOT_OPEN, row, &told);
    }
}

enum { HANDLES = INSTRUMENTS + RECORDERS + READERS };

/* The place of a handle of the first run: instruments first, then recorders, then readers. */
static void **place_of(size_t at) {
    if (at < INSTRUMENTS) {
        return &instruments[at].at;
    }
    return at < INSTRUMENTS + RECORDERS ? &recorders[at - INSTRUMENTS].at : &readers[at - INSTRUMENTS - RECORDERS].at;
}

/* Moves each handle so many places on, as only a host that breaks the rules does. */
static void turn(size_t places) {
    void *held[HANDLES];
    for (size_t at = 0; at < HANDLES; at++) {
        held[at] = *place_of(at);
    }
    for (size_t at = 0; at < HANDLES; at++) {
        *place_of((at + places) % HANDLES) = held[at];
    }
}

static void free_all(void) {
    const struct row all = { .handles = { 2 * INSTRUMENTS, 2 * RECORDERS, 2 * READERS } };
    free_handles(&all);
}

static void fill_keys(void) {
    for (size_t at = 0; at < sizeof KEYS / sizeof *KEYS; at++) {
        KEYS[at] = (wormweekly_attribute){ 1, WORMWEEKLY_YES, 0, 0 };
    }
    for (size_t at = 0; at < sizeof MANY_PAIRS / sizeof *MANY_PAIRS; at++) {
        MANY_PAIRS[at] = PAIRS[0];
    }
    memset(long_text, 'x', sizeof long_text - 1);
    LONG_PAIR[0] = (wormweekly_pair){ .key = "country", .text = long_text };
}

#define ROWS(table) (table), sizeof(table) / sizeof *(table)

int main(void) {
    fill_keys();
    check(ROWS(OPENING_ROWS));
    check(ROWS(ORDERS_ROWS));
    check(ROWS(ARTICLES_ROWS));
    check(ROWS(QUEUE_ROWS));
    check(ROWS(TARGET_ROWS));
    check(ROWS(MEANING_ROWS));
    /* By three and by four places, a handle of each kind stands where one of each other kind is asked for, none where
       its own. */
    for (size_t places = 3; places <= 4; places++) {
        turn(places);
        check_freed(ROWS(ORDERS_ROWS));
        check_freed(ROWS(ARTICLES_ROWS));
        check_freed(ROWS(QUEUE_ROWS));
        check_freed(ROWS(MEANING_ROWS));
        turn(HANDLES - places);
        check(ROWS(RETURNED_ROWS));
    }
    wormweekly_free_recorder(&recorders[NIGHT]);
    wormweekly_free_reader(&readers[CHANGES]);
    check_freed(ROWS(FREED_ROWS));
    free_all();
    free_all();
    check_freed(ROWS(ORDERS_ROWS));
    check_freed(ROWS(ARTICLES_ROWS));
    check_freed(ROWS(QUEUE_ROWS));
    check_freed(ROWS(MEANING_ROWS));
    check(ROWS(TWIN_ROWS));
    check(ROWS(PAIR_ROWS));
    /* Each is freed whole, whichever call frees it. */
    turn(3);
    free_all();
    printf("%d passed\n", passed);
    return 0;
}
