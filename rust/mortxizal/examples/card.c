/*
 * What some cards carry, told before one is ordered, for C99 and for C++:
 *
 *     ./library
 *     cc -std=c99 -I include rust/mortxizal/examples/card.c target/staticlib/libmortxizal.a -o card
 */
#include <inttypes.h>
#include <stdio.h>

#include "mortxizal.h"

#define PUTS 1000000

/* A card that may be ordered, with the numbers that its table would have. */
typedef struct {
    const char *name;
    uint32_t s, page, pages, kept, bits, hashes, list;
} offer;

static const offer offers[] = {
    {"small", 0, 64, 1, 2, 64, 3, 1},
    {"middle", 4, 4096, 16, 16, 65536, 8, 256},
    {"largest", 8, 4096, 64, 32, 65536, 8, 1024},
    {"none such", 8, 4096, 64, 33, 65536, 8, 1024}, /* at most 32 batches are kept */
};

static void show(const offer *o)
{
    mx_card c = mx_figures(o->s, o->page, o->pages, o->kept, o->bits, o->hashes, o->list, PUTS);
    if (c.status == MX_REFUSED) {
        printf("%-10s refused with %" PRIu32 "\n", o->name, c.number);
    } else {
        printf("%-10s %10" PRIu64 " %11" PRIu64 " %8" PRIu64 " %11" PRIu64 "\n", o->name, c.memory, c.flash,
               c.flushes, c.first_lost);
    }
}

int main(void)
{
    size_t i;
    printf("in %d puts\n", PUTS);
    printf("%-10s %10s %11s %8s %11s\n", "card", "memory", "flash", "flushes", "first lost");
    for (i = 0; i < sizeof offers / sizeof *offers; i++) {
        show(&offers[i]);
    }
    return 0;
}
