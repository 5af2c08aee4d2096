/* Stands before the C library in a program that reads the clock right before each of its parts and right after it. From the second time on
   that the clock is read a line on standard error says what was held since the time before:

   most N kept M    N: the most bytes that were in use at a time beyond those at the time before; M: how many more, or fewer, are in use now

   Bytes are those that the C library's blocks can hold. */
#define _GNU_SOURCE
#include <dlfcn.h>
#include <malloc.h>
#include <stddef.h>
#include <stdio.h>
#include <stdlib.h>
#include <time.h>

static long live = 0;
static long most = 0;
static long before = 0;
static int is_counting = 0;

static void taken(void *block) {
    if (!block)
        return;
    live += (long)malloc_usable_size(block);
    if (live > most)
        most = live;
}

static void let_go(void *block) {
    if (block)
        live -= (long)malloc_usable_size(block);
}

static void *counted(void *block) {
    taken(block);
    return block;
}

int clock_gettime(clockid_t clock, struct timespec *now) {
    static int (*next)(clockid_t, struct timespec *);
    if (!next)
        next = (int (*)(clockid_t, struct timespec *))dlsym(RTLD_NEXT, "clock_gettime");
    if (is_counting)
        dprintf(2, "most %ld kept %ld\n", most - before, live - before);
    is_counting = 1;
    before = live;
    most = live;
    return next(clock, now);
}

void *malloc(size_t size) {
    static void *(*next)(size_t);
    if (!next)
        next = (void *(*)(size_t))dlsym(RTLD_NEXT, "malloc");
    return counted(next(size));
}

void *calloc(size_t number, size_t size) {
    static void *(*next)(size_t, size_t);
    if (!next)
        next = (void *(*)(size_t, size_t))dlsym(RTLD_NEXT, "calloc");
    return counted(next(number, size));
}

/* Where a block moves, both are there while it is copied. */
void *realloc(void *block, size_t size) {
    static void *(*next)(void *, size_t);
    if (!next)
        next = (void *(*)(void *, size_t))dlsym(RTLD_NEXT, "realloc");
    if (!block)
        return malloc(size);
    long old = (long)malloc_usable_size(block);
    void *moved = next(block, size);
    if (!moved)
        return NULL;
    if (moved == block)
        live -= old;
    taken(moved);
    if (moved != block)
        live -= old;
    return moved;
}

void free(void *block) {
    static void (*next)(void *);
    if (!next)
        next = (void (*)(void *))dlsym(RTLD_NEXT, "free");
    let_go(block);
    next(block);
}
