// The few names of the C library that are used here: the kit's clang comes without its headers.
#ifndef C_H
#define C_H

typedef __SIZE_TYPE__ size_t;
typedef __UINT32_TYPE__ uint32_t;
typedef __UINT64_TYPE__ uint64_t;

void *memcpy(void *to, const void *from, size_t n);
void *memchr(const void *s, int c, size_t n);
int memcmp(const void *a, const void *b, size_t n);
size_t strlen(const char *s);
int printf(const char *form, ...);
int putchar(int c);
int snprintf(char *to, size_t n, const char *form, ...);
long read(int file, void *to, size_t n);
void *malloc(size_t n);
void *realloc(void *old, size_t n);

struct timespec { long tv_sec, tv_nsec; };
int clock_gettime(int clock, struct timespec *now);
#define CLOCK_PROCESS_CPUTIME_ID 2

#endif
