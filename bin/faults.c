/* Stands before one function of the C library, CALL, for bin/fault-cases: the calls from FIRST to LAST fail with the error WHY,
   and of the others each reads or writes PIECE bytes at most. Messages, on descriptor 2, and closing words, on 3 or on what was
   opened as 3, are let through. NUMBER is the system's number of the call. */
extern long syscall(long number, ...);
extern int *__errno_location(void);

static long calls;

/* Whether two descriptors are of one file, by the first two words of what fstat, call 5, says of each: its device and its number. */
static int same(int one, int other)
{
    unsigned long a[18], b[18];
    if (syscall(5L, one, a) != 0 || syscall(5L, other, b) != 0)
        return 0;
    return a[0] == b[0] && a[1] == b[1];
}

long CALL(int descriptor, void *bytes, unsigned long size)
{
    if (descriptor != 2 && !same(descriptor, 3)) {
        calls += 1;
        if (FIRST <= calls && calls <= LAST) {
            *__errno_location() = WHY;
            return -1;
        }
        if (size > PIECE)
            size = PIECE;
    }
    return syscall(NUMBER, descriptor, bytes, size);
}
