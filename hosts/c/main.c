/*
 * Scrubs images of pages in place: each argument is the path of an image file. It is checked, scrubbed and written back, and one
 * line says what happened. The exit status is 0 where all were scrubbed and written, and 1 where one was not.
 *
 * Built by
 *     cc -std=c99 -O2 -I include -o scrub hosts/c/main.c crates/host/out/libhost.a
 */
#include <stdio.h>
#include <stdlib.h>

#include "almp.h"

/* what block 0 names wrongly, by the first place of ALMP_HEADER */
static const char *part_of_header(unsigned place)
{
    static const char *const parts[] = {"kind", "columns", "check columns", "rows", "heights", "drift bound"};

    return place >= 1 && place <= 6 ? parts[place - 1] : "page";
}

/* Says in words why an answer is a refusal. */
static void print_reason(uint64_t answer)
{
    unsigned first = ALMP_FIRST(answer);
    unsigned second = ALMP_SECOND(answer);

    switch (ALMP_REFUSAL(answer)) {
    case ALMP_READING:
        printf("the cell at row %u and column %u reads no level", first, second);
        break;
    case ALMP_LOST:
        printf("no code row is close enough to row %u", first);
        break;
    case ALMP_FAR:
        printf("the cell at row %u and column %u has risen by more than the drift bound", first, second);
        break;
    case ALMP_UNDER:
        printf("the cell at row %u and column %u has drifted by more than it reads", first, second);
        break;
    case ALMP_LENGTH:
        printf("the size is no multiple of %d bytes, below %d or above %d", ALMP_BLOCK_SIZE, ALMP_SMALLEST_IMAGE, ALMP_LARGEST_IMAGE);
        break;
    case ALMP_CHECK:
        printf("the check of block %u is wrong", first);
        break;
    case ALMP_WORD:
        printf("byte %u, of the first word or the edition, is wrong", second);
        break;
    case ALMP_HEADER:
        printf("block 0 names no page, by its %s", part_of_header(first));
        break;
    case ALMP_MARKING:
        if (second == 14)
            printf("more columns are marked than the page has checks");
        else
            printf("the marked column at byte %u is no column, or not above the one before", second);
        break;
    case ALMP_BLOCKS:
        printf("the page takes %u blocks, and the image has another number", first);
        break;
    case ALMP_FILLER:
        printf("filler is not 0, in block %u at byte %u", first, second);
        break;
    default:
        printf("for a reason that this program does not know");
    }
}

/* Prints a refusal: its number, its places and why. */
static void print_refusal(const char *path, uint64_t answer)
{
    printf("%s: refused %u %u %u: ", path, ALMP_REFUSAL(answer), ALMP_FIRST(answer), ALMP_SECOND(answer));
    print_reason(answer);
    printf("\n");
}

/* Reads a file, as far as there is room. Answers whether it was read. */
static int read_file(const char *path, uint8_t *bytes, size_t room, size_t *size)
{
    FILE *file = fopen(path, "rb");
    int read;

    if (file == NULL)
        return 0;
    *size = fread(bytes, 1, room, file);
    read = !ferror(file);
    fclose(file);
    return read;
}

/* Writes over the bytes of a file that has as many. Answers whether all were written. */
static int write_file(const char *path, const uint8_t *bytes, size_t size)
{
    FILE *file = fopen(path, "r+b");
    int written;

    if (file == NULL)
        return 0;
    written = fwrite(bytes, 1, size, file) == size;
    return fclose(file) == 0 && written;
}

/* Scrubs the image in a file. Answers whether it was scrubbed and written back. */
static int scrub_file(const char *path)
{
    /* with room for a byte more than an image has, since a longer file is refused by any size above that */
    static uint8_t bytes[ALMP_LARGEST_IMAGE + 1];
    size_t size;
    uint64_t answer;

    if (!read_file(path, bytes, sizeof bytes, &size)) {
        printf("%s: cannot be read\n", path);
        return 0;
    }
    answer = almp_check(bytes, size);
    if (ALMP_REFUSAL(answer) == 0)
        answer = almp_scrub(bytes, size);
    if (ALMP_REFUSAL(answer) != 0) {
        print_refusal(path, answer);
        return 0;
    }
    if (!write_file(path, bytes, size)) {
        printf("%s: scrubbed, but cannot be written\n", path);
        return 0;
    }
    printf("%s: scrubbed: %lu levels had risen, and the image is written back\n", path, (unsigned long)answer);
    return 1;
}

int main(int count, char **arguments)
{
    int status = EXIT_SUCCESS;
    int i;

    if (count < 2) {
        fprintf(stderr, "usage: scrub FILE..\n");
        return EXIT_FAILURE;
    }
    for (i = 1; i < count; i++)
        if (!scrub_file(arguments[i]))
            status = EXIT_FAILURE;
    return status;
}
