/* Functions of C with something added. */
#define _GNU_SOURCE
#include <dlfcn.h>
#include <errno.h>
#include <pthread.h>
#include <stdbool.h>
#include <stddef.h>
#include <stdint.h>

/* The bytes that memcpy and memset are asked for are counted (the linker's --wrap); the proved library calls nothing else. */

void *__real_memcpy(void *to, const void *from, size_t count);
void *__real_memset(void *to, int byte, size_t count);

static uint64_t counted;

void *__wrap_memcpy(void *to, const void *from, size_t count) {
    counted += count;
    return __real_memcpy(to, from, count);
}

void *__wrap_memset(void *to, int byte, size_t count) {
    counted += count;
    return __real_memset(to, byte, count);
}

uint64_t counted_bytes(void) {
    return counted;
}

/*
 * libusrsctp starts a thread of its own even when it is told to start none. No call of ours needs it, and in a process of one thread the C library spares both
 * libraries some of its locks. So it can be refused.
 */

typedef int creating(pthread_t *, const pthread_attr_t *, void *(*)(void *), void *);

static bool refusing;

int pthread_create(pthread_t *thread, const pthread_attr_t *attributes, void *(*start)(void *), void *argument) {
    creating *create = (creating *)dlsym(RTLD_NEXT, "pthread_create");
    return refusing || !create ? EAGAIN : create(thread, attributes, start, argument);
}

void refuse_threads(bool refuse) {
    refusing = refuse;
}
