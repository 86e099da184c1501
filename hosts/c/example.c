/* Four threads record, one reader collects, and the totals are settled.
 *
 *     example [RECORDINGS]     how many each thread makes, 1000000 where none are named
 */
#include "wormweekly.h"

#include <pthread.h>
#include <stdio.h>
#include <stdlib.h>
#include <string.h>

enum { THREADS = 4 };

static size_t recordings = 1000000;

static const char CATALOGUE[] =
    "format = 1\n"
    "[[meter]]\n"
    "name = 'shop'\n"
    "[[meter.instrument]]\n"
    "name = 'orders'\n"
    "kind = 'counter'\n"
    "range = [1, 100]\n"
    "key = [{ name = 'country', values = ['de', 'fr'] }, { name = 'paid', values = [true, false] }]\n"
    "[[recorder]]\n"
    "name = 'worker 0'\n"
    "budget = [{ instrument = 0, amount = 1000001 }]\n"
    "[[recorder]]\n"
    "name = 'worker 1'\n"
    "budget = [{ instrument = 0, amount = 1000000 }]\n"
    "[[recorder]]\n"
    "name = 'worker 2'\n"
    "budget = [{ instrument = 0, amount = 1000000 }]\n"
    "[[recorder]]\n"
    "name = 'worker 3'\n"
    "budget = [{ instrument = 0, amount = 1000000 }]\n";

static const char CONFIG[] =
    "format = 1\n"
    "[[reader]]\n"
    "name = 'console'\n";

static const char TEXTS[] = "countrydepaid";
static const wormweekly_attribute PAID[] = { { 7, WORMWEEKLY_TEXT, 2, 0 }, { 4, WORMWEEKLY_YES, 0, 0 } };

static const uint8_t *bytes(const char *text) { return (const uint8_t *)text; }

static wormweekly_instrument orders = WORMWEEKLY_NOTHING;
static pthread_mutex_t orders_lock = PTHREAD_MUTEX_INITIALIZER;
static wormweekly_recorder workers[THREADS] = { WORMWEEKLY_NOTHING };
static wormweekly_reader console = WORMWEEKLY_NOTHING;

/* Records two articles again and again. Answers how many recordings were refused. */
static void *work(void *arg) {
    wormweekly_recorder *own = arg;
    wormweekly_prepared two;
    size_t refused = 0;
    if (wormweekly_prepare(own, 0, bytes(TEXTS), strlen(TEXTS), PAID, 2, &two) != WORMWEEKLY_DONE) {
        return (void *)recordings;
    }
    two.value = 2;
    for (size_t i = 0; i < recordings; i++) {
        pthread_mutex_lock(&orders_lock);
        refused += wormweekly_record_prepared(&orders, own, &two) != WORMWEEKLY_DONE;
        pthread_mutex_unlock(&orders_lock);
    }
    return (void *)refused;
}

static uint32_t record(const char *texts, size_t country, int64_t value) {
    const wormweekly_attribute given[] = { { 7, WORMWEEKLY_TEXT, country, 0 }, { 4, WORMWEEKLY_NO, 0, 0 } };
    pthread_mutex_lock(&orders_lock);
    uint32_t answer = wormweekly_record(&orders, &workers[0], bytes(texts), strlen(texts), given, 2, value);
    pthread_mutex_unlock(&orders_lock);
    return answer;
}

static uint32_t open_shop(const char *catalogue) {
    wormweekly_counts counts;
    uint8_t fault[200];
    size_t length;
    uint32_t answer = wormweekly_open(bytes(catalogue), strlen(catalogue), bytes(CONFIG), strlen(CONFIG), 0, &orders, 1,
                                      workers, THREADS, &console, 1, &counts, fault, sizeof fault, &length);
    if (answer == WORMWEEKLY_FAULT) {
        size_t told = length < sizeof fault ? length : sizeof fault;
        printf("fault: %.*s\n", (int)told, (const char *)fault);
    }
    return answer;
}

static void print_batch(void) {
    uint8_t text[1000];
    size_t length;
    pthread_mutex_lock(&orders_lock);
    uint32_t answer = wormweekly_collect(&orders, &console, 1000);
    pthread_mutex_unlock(&orders_lock);
    printf("collect: %u\n", answer);
    answer = wormweekly_text(&console, text, 10, &length);
    printf("text in 10 bytes: %u, wants %zu\n", answer, length);
    answer = wormweekly_text(&console, text, sizeof text, &length);
    printf("text: %u\n%.*s", answer, (int)length, (const char *)text);
}

int main(int count, char **words) {
    if (count > 1) {
        recordings = strtoul(words[1], NULL, 10);
    }
    printf("open: %u\n", open_shop("format = 4\n"));
    printf("record before it is open: %u\n", record("countrydepaid", 2, 1));
    printf("open: %u\n", open_shop(CATALOGUE));

    pthread_t threads[THREADS];
    size_t refused = 0;
    for (int i = 0; i < THREADS; i++) {
        pthread_create(&threads[i], NULL, work, &workers[i]);
    }
    for (int i = 0; i < THREADS; i++) {
        void *own;
        pthread_join(threads[i], &own);
        refused += (size_t)own;
    }
    printf("refused: %zu\n", refused);

    printf("undeclared value: %u\n", record("countryukpaid", 2, 1));
    printf("out of range: %u\n", record("countryfrpaid", 2, 101));
    printf("no text: %u\n", record("country\xff\xfepaid", 2, 1));
    printf("one more: %u\n", record("countryfrpaid", 2, 100));
    printf("past the budget: %u\n", record("countryfrpaid", 2, 100));
    print_batch();

    wormweekly_total total;
    printf("settle with three recorders: %u\n", wormweekly_settle(&orders, workers, 3, &total));
    printf("settle: %u\n", wormweekly_settle(&orders, workers, THREADS, &total));
    printf("total: %llu in %llu recordings\n", (unsigned long long)total.low, (unsigned long long)total.count);

    wormweekly_free_instrument(&orders);
    wormweekly_free_instrument(&orders);
    for (int i = 0; i < THREADS; i++) {
        wormweekly_free_recorder(&workers[i]);
    }
    wormweekly_free_reader(&console);
    printf("record after it was freed: %u\n", record("countrydepaid", 2, 1));
    return 0;
}
