/*
 * mortxizal.h: the fingerprint index for C and C++.
 *
 * A program asks at its start whether the library that it was linked with is the
 * one that this header describes:
 *
 *     if (mx_interface() != MX_INTERFACE) {
 *         fprintf(stderr, "mortxizal.h and libmortxizal.a do not fit\n");
 *         return 1;
 *     }
 *
 * MX_INTERFACE is the header's number and mx_interface() tells the library's. The
 * number rises with every change to a layout or a signature below. A library of
 * another number lays out its answers otherwise or takes other arguments, and the
 * linker does not notice: the program would read bytes that mean something else,
 * or that were never written. Libraries older than number 8 have no mx_interface,
 * so that such a program does not link with them.
 *
 * An index lives in two byte areas that the caller lends to every call: memory,
 * which holds the buffers, filters and lists of deleted keys, and flash, which
 * holds the batches. mx_figures and mx_interface alone are asked without them. The
 * library keeps nothing of its own, allocates nothing and never fails but by a
 * refusal in its answer. Link target/staticlib/libmortxizal.a, which `./library`
 * proves and writes for x86-64 Linux; it needs the C library's memmove and memset
 * alone.
 *
 * Every call is proved, on areas of any length and content, to answer and to
 * leave exactly what documents 01 and 02 say. A refused call has changed no
 * byte of any area. And it is proved of every list of these calls that begins
 * with an accepted mx_format, on two areas that nobody else writes from then
 * on: a get answers what the calls since then and their answers say, whichever
 * of them were refused.
 *
 * What the caller owes, since no C compiler checks it:
 *   - each area is as long as its length says, and may be read, and written
 *     where its pointer is not to const;
 *   - no pointer is NULL, also where its length is 0;
 *   - a length is below 2^63, and no area reaches past the end of the address
 *     space;
 *   - memory and flash do not overlap, and mx_text's text area overlaps neither;
 *   - nobody else writes to an area during a call, nor reads what the call may
 *     write. Calls on other areas may run meanwhile.
 */
#ifndef MORTXIZAL_H
#define MORTXIZAL_H

#include <stddef.h>
#include <stdint.h>

#ifdef __cplusplus
extern "C" {
#endif

/* The number of this header, and that of the library. */
#define MX_INTERFACE 8
uint32_t mx_interface(void);

/*
 * The answer of every call on the areas. A field that the table leaves out is 0.
 *
 *   call                       status       number    reads  batch  value   comparisons
 *   mx_format, mx_del, mx_drop MX_DONE
 *   mx_put                     MX_DONE      pages written: 0, or `pages` where
 *                                           it flushed its key's partition
 *   mx_flush                   MX_DONE      pages written: `pages`
 *   mx_get, the key is there   MX_FOUND               reads  where  value   comparisons
 *   mx_get, it is not          MX_NONE                reads                 comparisons
 *   mx_view, a buffer page     MX_DONE      bytes                   begins
 *   mx_view, a page of flash   MX_DONE      bytes     1      1      begins
 *   mx_count                   MX_DONE      entries
 *   mx_text                    MX_DONE                              bytes
 *   any of them                MX_REFUSED   refusal   reads
 *
 * It takes 32 bytes, of which the last 4 are padding: answers are compared field
 * by field.
 */
typedef struct {
    uint32_t status;      /* MX_DONE, MX_FOUND, MX_NONE or MX_REFUSED */
    uint32_t number;      /* done: pages written; refused: the refusal's number; view: bytes of the page;
                             count: entries */
    uint32_t reads;       /* flash pages read, also before a refusal */
    uint32_t batch;       /* found: 0 in the buffer, else the batch's number; view: 0 in memory, 1 in flash */
    uint64_t value;       /* found: the value; view: where the page begins in that area; text: its bytes */
    uint32_t comparisons; /* found, none: entries compared with the key inside pages */
} mx_answer;

/* What mx_figures tells of a table that is yet to be. Refused, the four figures are 0. */
typedef struct {
    uint32_t status;     /* MX_DONE or MX_REFUSED */
    uint32_t number;     /* done: 0; refused: MX_REFUSED_GEOMETRY */
    uint64_t memory;     /* bytes that the table needs of memory */
    uint64_t flash;      /* bytes that it needs of flash */
    uint64_t flushes;    /* the most flushes that so many puts can cause */
    uint64_t first_lost; /* the first put, counted from 1, at which an earlier key can be lost */
} mx_card;

/* the status of an mx_answer and of an mx_card */
enum { MX_DONE = 0, MX_FOUND = 1, MX_NONE = 2, MX_REFUSED = 3 };

/*
 * Refusals: the number where the status is MX_REFUSED. Each is given when its
 * condition holds and no earlier one of its call does, and at no other time.
 * mx_figures checks 1 alone; `all` below are the calls on the areas. mx_format
 * checks 1, 2, 3. The others check 2 (below 32 bytes), 11, 2 (the need), 3, 4, 12
 * and then their own: mx_put 16, 13; mx_get 13 as it reads; mx_del 14; mx_flush
 * 15, 16, 13; mx_view 17, 13; mx_text 13, 22; mx_drop 23, 13. Only mx_put checks
 * 21, behind 3 and before 12. Where mx_put, mx_del, mx_flush or mx_drop would end
 * with a total that cannot be, 12 comes last. Only 13 tells reads above 0, and not
 * that of mx_text; none tells comparisons.
 */
enum {
    /* from the arguments */
    MX_REFUSED_GEOMETRY = 1,     /* mx_format, mx_figures: a number outside the table of mx_format */
    MX_REFUSED_SHORT_MEMORY = 2, /* all: memory is shorter than 32 bytes, or than the need */
    MX_REFUSED_SHORT_FLASH = 3,  /* all: flash is shorter than the need */
    MX_REFUSED_OUT_OF_RANGE = 4, /* mx_flush, mx_view, mx_count, mx_text, mx_drop: partition not below 2^s;
                                    mx_view: page not below `pages` */
    MX_REFUSED_NO_POSITION = 21, /* mx_put: the value is 0, where the sound store has nothing */
    MX_REFUSED_SHORT_TEXT = 22,  /* mx_text: the text area is shorter than the text */

    /* from what the areas hold */
    MX_REFUSED_OPENING = 11,       /* all but mx_format: memory does not open with allowed numbers: it
                                      was never formatted, or is damaged */
    MX_REFUSED_OVERFULL = 12,      /* all but mx_format: damage: the partition lists more keys than it has
                                      places for, its total is above (kept + 1) * pages * (page / 16 - 1),
                                      more batches are live than `kept` or than were flushed, or a buffer
                                      page that the call reads counts more entries than fit (mx_text reads
                                      them all);
                                      mx_put, mx_del, mx_flush, mx_drop: the total would end above that, or
                                      below 0 */
    MX_REFUSED_BATCH_PAGE = 13,    /* mx_get, mx_view, mx_text, mx_drop, and mx_put and mx_flush where a batch
                                      is pushed out: damage: a page read from flash is not the one expected
                                      there. `reads` counts it, but is 0 for mx_text */
    MX_REFUSED_LIST_FULL = 14,     /* mx_del: the key has to be listed and the list is full. Flushes and
                                      drops of the partition free places */
    MX_REFUSED_BUFFER_EMPTY = 15,  /* mx_flush: there is nothing to flush */
    MX_REFUSED_NUMBERS_SPENT = 16, /* mx_put, mx_flush: a flush is due, and the partition has had 4294967295 */
    MX_REFUSED_NOT_LIVE = 17,      /* mx_view: the flush number is neither 0 nor that of a live batch */
    MX_REFUSED_NO_BATCH = 23       /* mx_drop: the partition has no live batch */
};

/*
 * The bytes that a table of allowed numbers needs of each area: constants, fit
 * for the length of an array. mx_figures tells the same when a program runs, and
 * refuses numbers that are not allowed. The largest table needs 138416160 and
 * 2147483648.
 *
 *   memory  32 + 2^s * (16 + 16 * list + kept * bits / 8 + pages * page)
 *   flash   2^s * kept * pages * page
 */
#define MX_MEMORY_NEED(s, page, pages, kept, bits, list)                                     \
    ((size_t)32 + ((size_t)1 << (s)) * ((size_t)16 + (size_t)16 * (list)                     \
                                        + (size_t)(kept) * (bits) / 8 + (size_t)(pages) * (page)))
#define MX_FLASH_NEED(s, page, pages, kept) \
    (((size_t)1 << (s)) * (size_t)(kept) * (size_t)(pages) * (size_t)(page))

/*
 * Makes memory an empty table. Memory beyond the need stays as it is, and so
 * does flash, which only has to be long enough: neither area has to be cleared.
 *
 *   number   what it is                               allowed
 *   s        the table has 2^s partitions             0 to 8
 *   page     bytes in a page, with page / 16 - 1      powers of two, 64 to 4096
 *            entries
 *   pages    pages in a batch                         powers of two, 1 to 64
 *   kept     most batches kept per partition          1 to 32
 *   bits     bits in a batch's filter                 powers of two, 64 to 65536
 *   hashes   bits set per key                         1 to 8
 *   list     places for deleted keys per partition    1 to 1024
 *
 * Partitions fill alike if the top s bits of the keys vary. A key's page in its
 * batch comes from its mixed bits, so its low 16 bits may be the same in all
 * keys, as a stream number is. A table that was filled while the page came from
 * those low bits has to be formatted anew if it has more than one page: of its
 * keys that now belong to another page mx_get says MX_NONE.
 *
 * A table that was filled while partitions had no totals has to be formatted
 * anew too. Its totals are 0 where they should not be, and nothing in its bytes
 * tells so: mx_count would be wrong, and calls that would end with a total below
 * 0 are refused with 12.
 *
 * So has a table that was filled while partitions had no number of live batches:
 * that number is 0 where it should not be, and no call tells so. mx_get finds no
 * key of its batches, and mx_count goes on counting their entries, so that later
 * puts may be refused with 12.
 *
 * Answers MX_DONE, or refuses with 1, 2 or 3.
 */
mx_answer mx_format(uint8_t *memory, size_t memory_len, const uint8_t *flash, size_t flash_len,
                    uint32_t s, uint32_t page, uint32_t pages, uint32_t kept, uint32_t bits,
                    uint32_t hashes, uint32_t list);

/*
 * Gives the key the value. Where the key is new to its buffer page and that
 * page is full, its partition is flushed first: the buffer becomes a batch in
 * flash. Where `kept` batches are live already the oldest one is pushed out, and
 * with it its keys that were not put again since; the heads of its pages are read
 * first, for the entries that leave the total. Every key is allowed, and every
 * value but 0: the sound store has nothing at position 0, and from mx_format on
 * no mx_get shows it.
 *
 * Answers MX_DONE with the pages written, or refuses with 2, 3, 11, 12, 13, 16
 * or 21.
 */
mx_answer mx_put(uint8_t *memory, size_t memory_len, uint8_t *flash, size_t flash_len, uint64_t key,
                 uint64_t value);

/*
 * Looks the key up: in the list of deleted keys, in the buffer, then in the
 * live batches whose filter passes, youngest first, of which it reads one page
 * each until it finds the key. A key that was put is found until it is deleted,
 * or until the batch that it went to is pushed out by a flush or dropped by
 * mx_drop.
 *
 * The comparisons tell the work inside pages: the entries that were compared with
 * the key in its buffer page and in each page read. A page costs i + 1 where the
 * key is its entry i, counted from 0, and its count of entries where the key is not
 * among them. The list of deleted keys costs none: a key in it has 0 reads and 0
 * comparisons. It is proved, on areas of any length and content, that no page costs
 * more than the E = page / 16 - 1 entries that it has room for, so that a get has
 * at most E * (reads + 1) comparisons.
 *
 * Answers MX_FOUND with the value, the reads, the comparisons and where it was, or
 * MX_NONE with the reads and the comparisons, or refuses with 2, 3, 11, 12 or 13.
 */
mx_answer mx_get(const uint8_t *memory, size_t memory_len, const uint8_t *flash, size_t flash_len,
                 uint64_t key);

/*
 * Deletes the key: it is found no more until it is put again. Where a live
 * batch may hold it, it takes a place in its partition's list of deleted keys
 * until that batch is pushed out or dropped. A key that is not there may be
 * deleted too. Reads no flash.
 *
 * Answers MX_DONE with 0 pages, or refuses with 2, 3, 11, 12 or 14.
 */
mx_answer mx_del(uint8_t *memory, size_t memory_len, const uint8_t *flash, size_t flash_len, uint64_t key);

/*
 * Flushes a partition, which is the top s bits of its keys: its buffer becomes
 * a batch in flash. Where it pushes the oldest batch out, the heads of that one's
 * pages are read first, as in mx_put.
 *
 * Answers MX_DONE with the pages written, or refuses with 2, 3, 4, 11, 12, 13,
 * 15 or 16.
 */
mx_answer mx_flush(uint8_t *memory, size_t memory_len, uint8_t *flash, size_t flash_len,
                   uint32_t partition);

/*
 * Tells where a page stands: of the buffer with flush number 0, else of the
 * live batch with that number, which the partition's flush of that number made.
 * The page is answer.number bytes from answer.value on, of memory where
 * answer.batch is 0 and of flash where it is 1, and lies within that area.
 *
 * Answers MX_DONE with the page, or refuses with 2, 3, 4, 11, 12, 13 or 17.
 */
mx_answer mx_view(const uint8_t *memory, size_t memory_len, const uint8_t *flash, size_t flash_len,
                  uint32_t partition, uint32_t page, uint32_t flush);

/*
 * Tells a partition's total: the entries of its buffer and of its live batches
 * together. The partition's head holds it, and no page is read. A key counts
 * once in each of them that has it, a deleted key too as long as the batch that
 * has it is live.
 *
 * Answers MX_DONE with the entries, or refuses with 2, 3, 4, 11 or 12.
 */
mx_answer mx_count(const uint8_t *memory, size_t memory_len, const uint8_t *flash, size_t flash_len,
                   uint32_t partition);

/*
 * Writes a partition as lines of the session program: `(put key value)` and
 * byte 10 for each key that mx_get finds, with the value found. The oldest batch
 * comes first and the buffer last, and within a batch the lines stand by page
 * and place of the entry. From a table that calls have made since mx_format, the
 * lines, read into a fresh table of the same numbers, give every key of the
 * partition the value that it had, or none; and they take at most 48 bytes for
 * each entry that mx_count tells:
 *
 *     mx_answer n = mx_count(memory, memory_len, flash, flash_len, partition);
 *     size_t text_len = (size_t)48 * n.number;
 *     uint8_t *text = malloc(text_len + 1);
 *     mx_answer a = mx_text(memory, memory_len, flash, flash_len, partition, text, text_len);
 *     fwrite(text, 1, a.value, stdout);
 *
 * All pages of the buffer and of the live batches are read. Bytes of the text
 * area behind the lines stay; where it is too short for them none is written.
 *
 * Answers MX_DONE with the bytes of the lines in answer.value, or refuses with
 * 2, 3, 4, 11, 12, 13 or 22.
 */
mx_answer mx_text(const uint8_t *memory, size_t memory_len, const uint8_t *flash, size_t flash_len,
                  uint32_t partition, uint8_t *text, size_t text_len);

/*
 * Drops a partition's oldest live batch: its keys that were not put again since
 * are found no more, its entries leave the total, and the keys that were listed
 * as deleted for it leave the list. As in mx_put, the heads of its pages are read
 * first. Flash and filters stay as they are; the batch's place in flash is
 * written over when a later flush comes to it.
 *
 * Answers MX_DONE with 0 pages, or refuses with 2, 3, 4, 11, 12, 13 or 23.
 */
mx_answer mx_drop(uint8_t *memory, size_t memory_len, const uint8_t *flash, size_t flash_len,
                  uint32_t partition);

/*
 * Tells what a table of these numbers will carry, before there is one: the bytes
 * that it needs of each area, the most flushes that so many puts can cause, in
 * all partitions together, and the first put at which an earlier key can be lost.
 * Every flush writes `pages` pages. A key is lost where mx_get says MX_NONE of it
 * though it was put and not deleted since. With E = page / 16 - 1:
 *
 *   flushes      (puts - 1) / E, rounded down, and 0 for no puts
 *   first_lost   (kept + 1) * E + 1, whatever `puts` is
 *
 * Both are for the worst keys. It is proved of every list of calls that begins
 * with an accepted mx_format, on two areas that nobody else writes from then on,
 * and in which no other mx_format, no mx_flush and no mx_drop comes: as many puts
 * as it has, refused ones with them, cause no more flushes, and no key is lost
 * before put first_lost. And it is proved that one list reaches both, of puts of
 * keys that share a page of a partition: put i, from 0, has key i mod 2^18 and
 * value 1. Keys that spread over pages and partitions do better.
 *
 * So three cards can be compared before one is ordered. For a million puts:
 *
 *   card      s  page  pages  kept   bits  hashes  list     memory       flash  flushes  first_lost
 *   small     0    64      1     2     64       3     1        144         128   333333          10
 *   middle    4  4096     16    16  65536       8   256    3211552    16777216     3921        4336
 *   largest   8  4096     64    32  65536       8  1024  138416160  2147483648     3921        8416
 *
 * Whatever the keys are, a million puts write at most 3921 * 16 pages to the
 * middle card, and after 4335 puts it still has every key that was put on it and
 * not deleted. rust/mortxizal/examples/card.c prints such a table.
 *
 * Answers MX_DONE with the figures, or refuses with 1 as mx_format does.
 */
mx_card mx_figures(uint32_t s, uint32_t page, uint32_t pages, uint32_t kept, uint32_t bits,
                   uint32_t hashes, uint32_t list, uint32_t puts);

#ifdef __cplusplus
}
#endif

#endif
