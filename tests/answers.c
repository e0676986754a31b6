/*
 * Calls both functions on image files, for tests/hosts.py: for each path it prints what almp_check and almp_scrub answer to the
 * bytes, and writes what they leave over the file. The calls run on a thread with 256 KiB of stack. The bytes stand alone in
 * memory of their own, so that a tool that watches memory sees a step outside of them.
 */
#include <pthread.h>
#include <stdio.h>
#include <stdlib.h>
#include <string.h>

#include "almp.h"

#define STACK (256 * 1024)

struct call {
    uint8_t *bytes;
    size_t size;
    uint64_t check;
    uint64_t scrub;
    int moved; /* whether almp_check moved a byte */
};

static void stop(const char *why)
{
    fprintf(stderr, "answers: %s\n", why);
    exit(EXIT_FAILURE);
}

static void *make_calls(void *argument)
{
    struct call *call = argument;
    uint8_t *before = malloc(call->size + 1);

    if (before == NULL)
        stop("no memory");
    memcpy(before, call->bytes, call->size);
    call->check = almp_check(call->bytes, call->size);
    call->moved = memcmp(before, call->bytes, call->size) != 0;
    free(before);
    call->scrub = almp_scrub(call->bytes, call->size);
    return NULL;
}

static void read_file(const char *path, struct call *call)
{
    FILE *file = fopen(path, "rb");
    long size;

    if (file == NULL || fseek(file, 0, SEEK_END) != 0 || (size = ftell(file)) < 0)
        stop("a file cannot be read");
    rewind(file);
    call->size = (size_t)size;
    call->bytes = malloc(call->size > 0 ? call->size : 1);
    if (call->bytes == NULL || fread(call->bytes, 1, call->size, file) != call->size)
        stop("a file cannot be read");
    fclose(file);
}

static void write_file(const char *path, const struct call *call)
{
    FILE *file = fopen(path, "wb");

    if (file == NULL || fwrite(call->bytes, 1, call->size, file) != call->size || fclose(file) != 0)
        stop("a file cannot be written");
}

int main(int count, char **paths)
{
    pthread_attr_t attributes;
    int i;

    if (pthread_attr_init(&attributes) != 0 || pthread_attr_setstacksize(&attributes, STACK) != 0)
        stop("no such stack");
    for (i = 1; i < count; i++) {
        struct call call;
        pthread_t thread;

        read_file(paths[i], &call);
        if (pthread_create(&thread, &attributes, make_calls, &call) != 0 || pthread_join(thread, NULL) != 0)
            stop("no thread");
        if (call.moved)
            stop("almp_check moved a byte");
        printf("%s %llu %llu\n", paths[i], (unsigned long long)call.check, (unsigned long long)call.scrub);
        write_file(paths[i], &call);
        free(call.bytes);
    }
    return EXIT_SUCCESS;
}
