/*
 * The page codec's two functions for host programs: check and scrub, on the bytes of a page's image.
 *
 * THE IMAGE. A page has R rows of n cells, and a cell holds one of up to 4,096 levels, which may rise with time. Its image is the
 * page with its cells as bytes: blocks of 512 bytes, 2 to 34 of them, so from 1,024 to 17,408 bytes. Numbers have their low byte
 * first. Bytes 508 to 511 of each block hold its check: 1 + the block's place + the sum of (j + 1) * byte j, for j from 0 to 507.
 *
 *   block 0    bytes 0 to 3    0x41 0x4C 0x4D 0x50
 *              4               the edition, 1
 *              5               the kind of the page's field, 1 to 7
 *              6 and 7         n, the columns
 *              8               r, the check columns
 *              9               R, the rows
 *              10 and 11       H, the heights
 *              12 and 13       D, the drift bound: how far a cell may rise
 *              14              how many columns are marked: what their cells read counts for nothing
 *              16 on           the marked columns, rising, two bytes each
 *   the others bytes 0 to 507  254 readings, two bytes each, row after row: what the cells read now
 *
 * All other bytes are filler, which is 0.
 *
 * THE ANSWERS. Both functions answer one number of 64 bits.
 *
 *   Below 2^32 the call is done: almp_check answers 0, and almp_scrub by how many levels the unmarked cells had risen in all.
 *
 *   From 2^32 on it is refused: the answer is refusal number * 2^32 + first place * 2^16 + second place, and no byte has moved.
 *   ALMP_REFUSAL, ALMP_FIRST and ALMP_SECOND take these three out; ALMP_REFUSAL is 0 where the call is done. A place that is not
 *   named is 0. Blocks, bytes, rows and columns are counted from 0.
 *
 *   Of both functions:
 *   31 ALMP_LENGTH   the size is no multiple of 512, below 1,024 or above 17,408
 *   32 ALMP_CHECK    the check of a block is wrong. First place: the block
 *   33 ALMP_WORD     one of the bytes 0 to 4 is wrong. Second place: that byte
 *   34 ALMP_HEADER   block 0 names no page. First place, what is out of its range: 1 the kind, 2 n, 3 r, 4 R, 5 H, 6 D
 *   35 ALMP_MARKING  there are more marked columns than check columns, or one is not below n or not above the one before. Second
 *                    place: 14 for too many, else the first byte of the wrong column
 *   36 ALMP_BLOCKS   the image has another number of blocks than the page takes. First place: how many it takes
 *   37 ALMP_FILLER   filler is not 0. First place: the block; second place: the byte in it
 *
 *   Of almp_scrub, on an image:
 *   21 ALMP_READING  an unmarked cell reads no level. First place: its row; second place: its column
 *   22 ALMP_LOST     too many cells of a row have risen, or are marked, for its levels to be found. First place: the row
 *   23 ALMP_FAR      a cell has risen by more than D. First place: its row; second place: its column
 *   24 ALMP_UNDER    a cell has drifted by more than it reads. First place: its row; second place: its column
 *
 *   The lowest number from 31 to 37 is answered, at its lowest block and byte. Of an image it is 21, at the lowest cell; then 22, 23
 *   or 24 of the lowest row that has one, 22 before 23 and 23 before 24. No other refusal comes.
 *
 * THE CALLS. A call reads and writes only the bytes it is given and its own stack, of which it takes less than 256 KiB on x86-64
 * (measured, not proved). It allocates no memory, keeps nothing between calls, calls nothing of the program but memcpy and memset,
 * and always returns. So any number of threads may call both at once, on different bytes; on the same bytes only almp_check.
 *
 * This header is C99 and C++. What the functions promise is proved of their source; nothing checks these declarations against it.
 */
#ifndef ALMP_H
#define ALMP_H

#include <stddef.h>
#include <stdint.h>

#ifdef __cplusplus
extern "C" {
#endif

/* sizes of images, in bytes */
#define ALMP_BLOCK_SIZE 512
#define ALMP_SMALLEST_IMAGE 1024
#define ALMP_LARGEST_IMAGE 17408

/* the refusal numbers */
enum {
    ALMP_READING = 21,
    ALMP_LOST = 22,
    ALMP_FAR = 23,
    ALMP_UNDER = 24,
    ALMP_LENGTH = 31,
    ALMP_CHECK = 32,
    ALMP_WORD = 33,
    ALMP_HEADER = 34,
    ALMP_MARKING = 35,
    ALMP_BLOCKS = 36,
    ALMP_FILLER = 37
};

/* the parts of an answer */
#define ALMP_REFUSAL(answer) ((unsigned)((uint64_t)(answer) >> 32))
#define ALMP_FIRST(answer) ((unsigned)(((uint64_t)(answer) >> 16) & 0xFFFFu))
#define ALMP_SECOND(answer) ((unsigned)((uint64_t)(answer) & 0xFFFFu))

/*
 * Says whether the `size` bytes from `image` on are an image: 0, or a refusal from 31 to 37.
 * `image` is not null, not even for a size of 0, and nothing writes these bytes during the call.
 */
uint64_t almp_check(const uint8_t *image, size_t size);

/*
 * Scrubs the page whose image the `size` bytes from `image` on are: finds the levels that its cells were written to, and makes the
 * bytes the image of the same page with its cells at those levels, a cell in a marked column at its symbol, and with new checks.
 * Answers by how many levels the cells had risen in all; or refuses, by a number from 31 to 37 or from 21 to 24, and leaves the
 * bytes as they were.
 * `image` is not null, not even for a size of 0, and nothing else reads or writes these bytes during the call.
 */
uint64_t almp_scrub(uint8_t *image, size_t size);

#ifdef __cplusplus
}
#endif

#endif
