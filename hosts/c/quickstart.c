/* A plan is certified, orders are recorded and one is refused, what was collected is printed, and the next run begins. */
#include "wormweekly.h"
#include <stdio.h>
#include <string.h>

/* A text as the calls take it: where it begins, and how long it is. */
#define TEXT(text) (const uint8_t *)(text), strlen(text)

static const char CATALOGUE[] = "format = 1\n[[meter]]\nname = 'shop'\n"
                                "[[meter.instrument]]\nname = 'orders'\nkind = 'counter'\nrange = [1, 100]\n"
                                "key = [{ name = 'country', values = ['de', 'fr'] }]\n"
                                "[[recorder]]\nname = 'till'\nbudget = [{ instrument = 0, amount = 1000 }]\n";
static const char CONFIG[] = "format = 1\n[[reader]]\nname = 'console'\n";

/* The handles of a run. */
static struct run {
    wormweekly_instrument orders;
    wormweekly_recorder till;
    wormweekly_reader console;
} first, next;

/* The last collection of a run, and what it comes to. */
static void end(struct run *run, uint64_t now) {
    uint8_t text[1000];
    size_t length;
    wormweekly_total total;
    wormweekly_collect(&run->orders, &run->console, now);
    if (wormweekly_text(&run->console, text, sizeof text, &length) == WORMWEEKLY_DONE) fwrite(text, 1, length, stdout);
    if (wormweekly_settle(&run->orders, &run->till, 1, &total) == WORMWEEKLY_DONE)
        printf("settled: %llu in %llu recordings\n", (unsigned long long)total.low, (unsigned long long)total.count);
    wormweekly_free_instrument(&run->orders);
    wormweekly_free_recorder(&run->till);
    wormweekly_free_reader(&run->console);
}

int main(void) {
    wormweekly_counts counts;
    wormweekly_budget_out budget = { 0, 0, 0, 0 };
    uint8_t text[400];
    size_t length = 0; /* the run begins at 0 nanoseconds */
    if (wormweekly_open(TEXT(CATALOGUE), TEXT(CONFIG), 0, &first.orders, 1, &first.till, 1, &first.console, 1, &counts,
                        text, sizeof text, &length) != WORMWEEKLY_DONE) {
        fwrite(text, 1, length < sizeof text ? length : sizeof text, stderr);
        return 1;
    }
    const wormweekly_pair german = { .key = "country", .text = "de" }, french = { .key = "country", .text = "fr" };
    printf("de: %u\n", wormweekly_record_pairs(&first.orders, &first.till, &german, 1, 2));
    /* The same without packing: the key has 7 bytes, its value is a text of 2. */
    const wormweekly_attribute country = { 7, WORMWEEKLY_TEXT, 2, 0 };
    printf("uk: %u\n", wormweekly_record(&first.orders, &first.till, TEXT("countryuk"), &country, 1, 1));
    wormweekly_explain(&first.till, 0, TEXT("countryuk"), &country, 1, 1, text, sizeof text, &length);
    printf("%.*s\n", (int)length, (const char *)text);
    /* A budget ends: look at what is left in time, and go on in the next run of the plan. */
    wormweekly_budget(&first.orders, &first.till, &budget);
    printf("left: %llu\n", (unsigned long long)budget.left);
    wormweekly_next(&first.till, 1000, &next.orders, 1, &next.till, 1, &next.console, 1, &counts);
    end(&first, 1000);
    printf("fr: %u\n", wormweekly_record_pairs(&next.orders, &next.till, &french, 1, 3));
    end(&next, 2000);
    return 0;
}
