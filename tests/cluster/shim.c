/* Bad worlds for a program for x86-64 that is started with this as LD_PRELOAD:
   with SHIM_FLOCK each lock is had, as on a file system that holds nobody back;
   with SHIM_CLOCK=SECONDS the machine's clock is ahead by so many, or behind.
   Calls go to the system directly, so that this does without the library's own functions. */
#include <stdarg.h>
#include <stdlib.h>
#include <sys/syscall.h>
#include <time.h>

static long call(long number, long a, long b, long c, long d, long e, long f)
{
    long told;
    register long fourth __asm__("r10") = d;
    register long fifth __asm__("r8") = e;
    register long sixth __asm__("r9") = f;
    __asm__ volatile("syscall" : "=a"(told) : "a"(number), "D"(a), "S"(b), "d"(c), "r"(fourth), "r"(fifth), "r"(sixth) : "rcx", "r11", "memory");
    return told;
}

static long answered(long told)
{
    extern int *__errno_location(void);
    if (told < 0 && told >= -4095) {
        *__errno_location() = (int)-told;
        return -1;
    }
    return told;
}

static void shift(long clock, struct timespec *moment)
{
    const char *ahead = getenv("SHIM_CLOCK");
    if (ahead && clock == CLOCK_REALTIME)
        moment->tv_sec += atol(ahead);
}

int flock(int file, int operation)
{
    return getenv("SHIM_FLOCK") ? 0 : (int)answered(call(SYS_flock, file, operation, 0, 0, 0, 0));
}

int clock_gettime(clockid_t clock, struct timespec *moment)
{
    long told = call(SYS_clock_gettime, clock, (long)moment, 0, 0, 0, 0);
    if (told == 0)
        shift(clock, moment);
    return (int)answered(told);
}

long syscall(long number, ...)
{
    va_list words;
    va_start(words, number);
    long a = va_arg(words, long), b = va_arg(words, long), c = va_arg(words, long);
    long d = va_arg(words, long), e = va_arg(words, long), f = va_arg(words, long);
    va_end(words);
    long told = call(number, a, b, c, d, e, f);
    if (number == SYS_clock_gettime && told == 0)
        shift(a, (struct timespec *)b);
    return answered(told);
}
