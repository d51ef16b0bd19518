/* Put before the C library, counts the copies of 800 to 960 bytes, which are of a machine, and those of 300 to 799 bytes, of a
   part of one; at the end it writes both numbers. Longer copies are the stores' and the state's words. */
#include <stddef.h>
#include <stdio.h>

static unsigned long machines, parts;

static void count(size_t bytes) {
    if (bytes >= 800 && bytes <= 960) machines++;
    else if (bytes >= 300 && bytes < 800) parts++;
}

/* volatile, so that the loop is not made a call of the function itself */
static void forward(void *to, const void *from, size_t bytes) {
    volatile char *d = to;
    const volatile char *s = from;
    for (size_t i = 0; i < bytes; i++) d[i] = s[i];
}

static void backward(void *to, const void *from, size_t bytes) {
    volatile char *d = to;
    const volatile char *s = from;
    for (size_t i = bytes; i > 0; i--) d[i - 1] = s[i - 1];
}

void *memcpy(void *restrict to, const void *restrict from, size_t bytes) {
    count(bytes);
    forward(to, from, bytes);
    return to;
}

void *memmove(void *to, const void *from, size_t bytes) {
    count(bytes);
    if ((const char *)to < (const char *)from) forward(to, from, bytes);
    else backward(to, from, bytes);
    return to;
}

__attribute__((destructor)) static void done(void) { fprintf(stderr, "copies %lu %lu\n", machines, parts); }
