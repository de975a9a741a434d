/*
 * A first program over the index, for C99 and for C++:
 *
 *     ./library
 *     cc -std=c99 -I include rust/mortxizal/examples/first.c target/staticlib/libmortxizal.a -o first
 */
#include <inttypes.h>
#include <stdio.h>

#include "mortxizal.h"

/* One partition, pages of 64 bytes with three entries, one page in a batch, two batches kept. */
enum { S = 0, PAGE = 64, PAGES = 1, KEPT = 2, BITS = 64, HASHES = 3, LIST = 1 };

static uint8_t memory[MX_MEMORY_NEED(S, PAGE, PAGES, KEPT, BITS, LIST)];
static uint8_t flash[MX_FLASH_NEED(S, PAGE, PAGES, KEPT)];

/* Room for a line of 48 bytes, the longest, for every entry that a partition holds. */
static uint8_t text[48 * (KEPT + 1) * PAGES * (PAGE / 16 - 1)];

static void show(const char *call, mx_answer a)
{
    printf("%s: ", call);
    switch (a.status) {
    case MX_DONE:
        printf("done, pages written %" PRIu32 "\n", a.number);
        break;
    case MX_FOUND:
        printf("%" PRIu64 " from ", a.value);
        if (a.batch == 0) {
            printf("the buffer");
        } else {
            printf("batch %" PRIu32, a.batch);
        }
        printf(", reads %" PRIu32 ", comparisons %" PRIu32 "\n", a.reads, a.comparisons);
        break;
    case MX_NONE:
        printf("none, reads %" PRIu32 ", comparisons %" PRIu32 "\n", a.reads, a.comparisons);
        break;
    default:
        printf("refused with %" PRIu32 ", reads %" PRIu32 "\n", a.number, a.reads);
    }
}

static mx_answer put(uint64_t key, uint64_t value)
{
    return mx_put(memory, sizeof memory, flash, sizeof flash, key, value);
}

static mx_answer get(uint64_t key)
{
    return mx_get(memory, sizeof memory, flash, sizeof flash, key);
}

static mx_answer del(uint64_t key)
{
    return mx_del(memory, sizeof memory, flash, sizeof flash, key);
}

static mx_answer drop_oldest(void)
{
    return mx_drop(memory, sizeof memory, flash, sizeof flash, 0);
}

static void show_count(void)
{
    mx_answer a = mx_count(memory, sizeof memory, flash, sizeof flash, 0);
    if (a.status == MX_DONE) {
        printf("count: entries %" PRIu32 "\n", a.number);
    } else {
        show("count", a);
    }
}

static void show_text(void)
{
    mx_answer a = mx_text(memory, sizeof memory, flash, sizeof flash, 0, text, sizeof text);
    if (a.status == MX_DONE) {
        printf("text: bytes %" PRIu64 "\n%.*s", a.value, (int)a.value, (const char *)text);
    } else {
        show("text", a);
    }
}

static void show_page(uint32_t flush)
{
    mx_answer a = mx_view(memory, sizeof memory, flash, sizeof flash, 0, 0, flush);
    const uint8_t *page = (a.batch == 0 ? memory : flash) + a.value;
    if (a.status == MX_DONE) {
        printf("view %" PRIu32 ": bytes %" PRIu32 ", entries %d\n", flush, a.number, page[0] + 256 * page[1]);
    } else {
        printf("view %" PRIu32 ": refused with %" PRIu32 "\n", flush, a.number);
    }
}

int main(void)
{
    if (mx_interface() != MX_INTERFACE) { /* another library's answers mean something else */
        fprintf(stderr, "mortxizal.h has interface %d, the library %" PRIu32 "\n", MX_INTERFACE, mx_interface());
        return 1;
    }
    printf("%zu bytes of memory, %zu of flash\n", sizeof memory, sizeof flash);
    show("get 1", get(1));
    show("format", mx_format(memory, sizeof memory, flash, sizeof flash, S, PAGE, PAGES, KEPT, BITS, HASHES, LIST));
    show("put 1", put(1, 10));
    show("put 2", put(2, 20));
    show("put 3", put(3, 30));
    show("put 4", put(4, 40)); /* the page is full: a flush, then the put */
    show("put 5", put(5, 0)); /* the sound store has nothing at position 0 */
    show("get 2", get(2)); /* compares the one entry of the buffer page, then two of the batch's page */
    show("get 4", get(4));
    show("get 5", get(5)); /* compares that one entry; no filter passes */
    show("del 2", del(2));
    show("get 2", get(2));
    show("del 3", del(3)); /* the list has one place, which key 2 has */
    show_count(); /* three in the batch, where key 2 still is, and one in the buffer */
    show_text(); /* what a get finds: two of the batch, then that of the buffer */
    show_page(0);
    show_page(1);
    show_page(2);
    show("flush", mx_flush(memory, sizeof memory, flash, sizeof flash, 0));
    show("flush", mx_flush(memory, sizeof memory, flash, sizeof flash, 0));
    show("drop", drop_oldest()); /* batch 1 goes, and key 2 leaves the list with it */
    show("get 1", get(1));
    show("get 4", get(4));
    show_count();
    show("drop", drop_oldest());
    show("drop", drop_oldest()); /* no batch is left */
    return 0;
}
