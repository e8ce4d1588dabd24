/* How many bytes of a thread's stack a call touches: the stack is painted before the call, and what is no longer paint is counted.
 * A thread that does nothing is the first line.
 *
 *     tools/archives exports desk_exports image_exports log_exports
 *     cc -O1 -Iinclude tools/stack.c -Ltarget/staticlib -ldesk_exports -limage_exports -llog_exports -lexports -lpthread -o target/stack
 *     target/stack < examples/depot_week.trace */
#include <pthread.h>
#include <stdint.h>
#include <stdio.h>
#include <stdlib.h>
#include <string.h>

#include "cuudhaqil.h"
#include "cuudhaqil_desk.h"
#include "cuudhaqil_image.h"
#include "cuudhaqil_log.h"

enum { STACK = 2 << 20, BYTES = 65536, LEDGER = 1924, CARD = 3 * 64, PAINT = 0xAA };

static uint64_t ledger[LEDGER], counts[2], verdict[3], objects[256], list[64], step[11] = {0, 22, 0, 2, 7, 9, 978, 1, 6}, at[1];
static uint64_t card[CARD], entries, sale[2], rate[4] = {1, 978, 1, 1};
static uint8_t trace[BYTES], out[BYTES], image[CUUDHAQIL_LONGEST_IMAGE], sheet[41];
static size_t trace_len, image_len;

static void *nothing(void *none) { return none; }
static void *fresh(void *none) { cuudhaqil_fresh(ledger, LEDGER); return none; }
static void *run(void *none) { cuudhaqil_run(trace, trace_len, out, BYTES, counts, 2); return none; }
static void *run_on(void *none) { cuudhaqil_run_on(ledger, LEDGER, trace, trace_len, out, BYTES, counts, 2); return none; }
static void *check_log(void *none) { cuudhaqil_check_log(image, 0, trace, trace_len, out, counts[1], at, 1); return none; }
static void *one_step(void *none) { cuudhaqil_step(ledger, LEDGER, step, 11, list, 64, verdict, 3, objects, 256); return none; }
static void *is_sound(void *none) { cuudhaqil_is_sound(ledger, LEDGER); return none; }
static void *write_image(void *none) { image_len = cuudhaqil_write_image(ledger, LEDGER, image, sizeof image); return none; }
static void *read_image(void *none) { cuudhaqil_read_image(image, image_len, ledger, LEDGER); return none; }
static void *fill_card(void *none) { cuudhaqil_fill_card(ledger, LEDGER, 40, 0, entries, card, CARD); return none; }
static void *sell(void *none) { cuudhaqil_sell(ledger, LEDGER, 40, sheet, sizeof sheet, 978, 0, 10, sale, 2); return none; }

static void tell(const char *name, void *(*call)(void *)) {
    unsigned char *stack = aligned_alloc(4096, STACK);
    pthread_attr_t attributes;
    pthread_t thread;
    size_t left = 0;
    memset(stack, PAINT, STACK);
    pthread_attr_init(&attributes);
    pthread_attr_setstack(&attributes, stack, STACK);
    if (pthread_create(&thread, &attributes, call, NULL) != 0)
        exit(1);
    pthread_join(thread, NULL);
    while (left < STACK && stack[left] == PAINT)
        left++;
    free(stack);
    printf("%-12s %zu\n", name, STACK - left);
}

/* A card's entries, all of one currency, and a sale; after each its code. */
static void desk(const char *of) {
    static const uint64_t some[] = {0, 1, 64, 65};
    printf("of %s\n", of);
    for (size_t k = 0; k < sizeof some / sizeof *some; k++) {
        entries = some[k];
        memset(card, 0, sizeof card);
        for (size_t i = 0; i < CARD; i += 3)
            card[i] = 978;
        tell("fill_card", fill_card);
        printf("  %llu entries, code %llu\n", (unsigned long long)entries, (unsigned long long)card[1]);
    }
    tell("sell", sell);
    printf("  code %llu\n", (unsigned long long)sale[0]);
}

int main(void) {
    trace_len = fread(trace, 1, BYTES, stdin);
    tell("nothing", nothing);
    tell("fresh", fresh);
    tell("run", run);
    tell("check_log", check_log);
    tell("run_on", run_on);
    tell("is_sound", is_sound);
    for (step[0] = 0; step[0] < 10; step[0]++)
        tell("step", one_step);
    tell("write_image", write_image);
    tell("read_image", read_image);
    cuudhaqil_write_sheet(rate, 4, sheet, sizeof sheet);
    memset(ledger, 0xFF, sizeof ledger);
    desk("an unsound ledger");
    cuudhaqil_fresh(ledger, LEDGER);
    desk("the fresh one");
    cuudhaqil_fresh(ledger, LEDGER);
    run_on(NULL);
    desk("the trace's");
    return 0;
}
