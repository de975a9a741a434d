/*
 * What include/mortxizal.h promises of sizes and numbers, checked by the compiler; C99 has no static assertion.
 * The program prints the interface's number, by the header and by the library.
 */
#include <inttypes.h>
#include <stdio.h>

#include "mortxizal.h"

#if MX_INTERFACE != 8
#error "the sizes below are those of interface 8"
#endif

#define HOLDS(name, fact) typedef char name[(fact) ? 1 : -1]
#define PLACED(type, field, at, length)                                   \
    HOLDS(type##_##field##_at, offsetof(type, field) == (at));            \
    HOLDS(type##_##field##_length, sizeof(((type *)0)->field) == (length))

PLACED(mx_answer, status, 0, 4);
PLACED(mx_answer, number, 4, 4);
PLACED(mx_answer, reads, 8, 4);
PLACED(mx_answer, batch, 12, 4);
PLACED(mx_answer, value, 16, 8);
PLACED(mx_answer, comparisons, 24, 4);
HOLDS(answer_length, sizeof(mx_answer) == 32);

PLACED(mx_card, status, 0, 4);
PLACED(mx_card, number, 4, 4);
PLACED(mx_card, memory, 8, 8);
PLACED(mx_card, flash, 16, 8);
PLACED(mx_card, flushes, 24, 8);
PLACED(mx_card, first_lost, 32, 8);
HOLDS(card_length, sizeof(mx_card) == 40);

HOLDS(session_memory, MX_MEMORY_NEED(0, 64, 1, 2, 64, 1) == 144);
HOLDS(session_flash, MX_FLASH_NEED(0, 64, 1, 2) == 128);
HOLDS(largest_memory, MX_MEMORY_NEED(8, 4096, 64, 32, 65536, 1024) == 138416160);
HOLDS(largest_flash, MX_FLASH_NEED(8, 4096, 64, 32) == 2147483648);

HOLDS(geometry, MX_REFUSED_GEOMETRY == 1);
HOLDS(short_text, MX_REFUSED_SHORT_TEXT == 22);
HOLDS(no_batch, MX_REFUSED_NO_BATCH == 23);
HOLDS(longest_line, sizeof "(put 18446744073709551615 18446744073709551615)\n" - 1 == 48);

int main(void)
{
    printf("%d %" PRIu32 "\n", MX_INTERFACE, mx_interface());
    return 0;
}
