/* Calls that pack what they are given for the proved calls. They keep nothing, and are not proved themselves. */
#include "wormweekly.h"

#include <stdlib.h>
#include <string.h>

const char *wormweekly_version(void) { return WORMWEEKLY_VERSION; }

/* Of so many attributes one is refused, whatever the others are. */
enum { MOST = 65, FEW_BYTES = 1024 };

/* Pairs as the proved calls take them. Texts of more than a few bytes are in memory of their own. */
struct packed {
    wormweekly_attribute attributes[MOST];
    uint8_t few[FEW_BYTES];
    uint8_t *texts;
    size_t count, length;
};

static size_t length_of(const char *text) { return text == NULL ? 0 : strlen(text); }

static size_t text_of(const wormweekly_pair *pair) { return pair->kind == WORMWEEKLY_TEXT ? length_of(pair->text) : 0; }

static void fill(struct packed *out, const wormweekly_pair *pairs) {
    uint8_t *at = out->texts;
    for (size_t i = 0; i < out->count; i++) {
        wormweekly_attribute own = { length_of(pairs[i].key), pairs[i].kind, text_of(&pairs[i]), pairs[i].whole };
        if (own.key > 0) memcpy(at, pairs[i].key, own.key);
        if (own.text > 0) memcpy(at + own.key, pairs[i].text, own.text);
        at += own.key + own.text;
        out->attributes[i] = own;
    }
}

static int pack(struct packed *out, const wormweekly_pair *pairs, size_t count) {
    out->count = count < MOST ? count : MOST;
    out->length = 0;
    for (size_t i = 0; i < out->count; i++) {
        out->length += length_of(pairs[i].key) + text_of(&pairs[i]);
    }
    out->texts = out->length <= FEW_BYTES ? out->few : malloc(out->length);
    if (out->texts == NULL) return 0;
    fill(out, pairs);
    return 1;
}

static void unpack(struct packed *own) {
    if (own->texts != own->few) free(own->texts);
}

uint32_t wormweekly_record_pairs(wormweekly_instrument *instrument, wormweekly_recorder *recorder,
                                 const wormweekly_pair *pairs, size_t pairs_length, int64_t value) {
    struct packed own;
    if (!pack(&own, pairs, pairs_length)) return WORMWEEKLY_MEMORY;
    uint32_t answer = wormweekly_record(instrument, recorder, own.texts, own.length, own.attributes, own.count, value);
    unpack(&own);
    return answer;
}

uint32_t wormweekly_prepare_pairs(wormweekly_recorder *recorder, uint32_t instrument, const wormweekly_pair *pairs,
                                  size_t pairs_length, wormweekly_prepared *prepared) {
    struct packed own;
    if (!pack(&own, pairs, pairs_length)) return WORMWEEKLY_MEMORY;
    uint32_t answer =
        wormweekly_prepare(recorder, instrument, own.texts, own.length, own.attributes, own.count, prepared);
    unpack(&own);
    return answer;
}

/* A page as far as it is written. Past its room, its length alone grows. */
struct page {
    uint8_t *out;
    size_t room, length;
};

static uint8_t *end_of(const struct page *page) { return page->length < page->room ? page->out + page->length : NULL; }

static size_t left_of(const struct page *page) { return page->length < page->room ? page->room - page->length : 0; }

/* What is written next was answered this, and is so long. */
static uint32_t grow(struct page *page, uint32_t answer, size_t length) {
    if (answer != WORMWEEKLY_DONE && answer != WORMWEEKLY_TOO_SHORT) return answer;
    page->length += length;
    return WORMWEEKLY_DONE;
}

static uint32_t write_target(struct page *page, uint32_t dialect, const wormweekly_pair *pairs, size_t count) {
    struct packed own;
    size_t length = 0;
    if (!pack(&own, pairs, count)) return WORMWEEKLY_MEMORY;
    uint32_t answer = wormweekly_prometheus_target(dialect, own.texts, own.length, own.attributes, own.count,
                                                   end_of(page), left_of(page), &length);
    unpack(&own);
    return grow(page, answer, length);
}

static void write_end(struct page *page) {
    static const char end[] = "# EOF\n";
    if (left_of(page) >= sizeof end - 1) memcpy(end_of(page), end, sizeof end - 1);
    page->length += sizeof end - 1;
}

uint32_t wormweekly_page(wormweekly_instrument *instruments, size_t instruments_length, wormweekly_reader *reader,
                         uint64_t now, uint32_t dialect, const wormweekly_pair *resource, size_t resource_length,
                         wormweekly_hold hold, void *host, uint8_t *out, size_t room, size_t *text_length) {
    struct page page = { out, room, 0 };
    uint32_t answer = write_target(&page, dialect, resource, resource_length);
    for (size_t i = 0; i < instruments_length && answer == WORMWEEKLY_DONE; i++) {
        if (hold != NULL) hold(host, i, 1);
        answer = i == 0 ? wormweekly_collect(&instruments[i], reader, now)
                        : wormweekly_collect_also(&instruments[i], reader, now);
        if (hold != NULL) hold(host, i, 0);
    }
    if (answer == WORMWEEKLY_DONE && instruments_length > 0) {
        size_t length = 0;
        answer = wormweekly_prometheus(reader, dialect, end_of(&page), left_of(&page), &length);
        answer = grow(&page, answer, length);
    }
    if (answer != WORMWEEKLY_DONE) return answer;
    if (dialect > 0) write_end(&page);
    *text_length = page.length;
    return page.length <= room ? WORMWEEKLY_DONE : WORMWEEKLY_TOO_SHORT;
}
