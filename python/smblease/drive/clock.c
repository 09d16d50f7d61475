/* Preloaded into a private smbd: puts the wall clock of single processes forward, so that their timers end at once.
 *
 * DRIVE_CLOCK names a file of pairs of 64-bit numbers, a process and the seconds that its clock is ahead. All processes have it
 * mapped, so a pair that is written there takes effect at the process's next look at its clock. */
#define _GNU_SOURCE
#include <fcntl.h>
#include <stdint.h>
#include <stdlib.h>
#include <sys/mman.h>
#include <sys/syscall.h>
#include <sys/time.h>
#include <time.h>
#include <unistd.h>

enum { PAIRS = 256 };

struct pair {
    int64_t process;
    int64_t seconds;
};

static const volatile struct pair *pairs;

__attribute__((constructor)) static void map_pairs(void)
{
    const char *name = getenv("DRIVE_CLOCK");
    int file = name ? open(name, O_RDONLY | O_CLOEXEC) : -1;
    if (file < 0)
        return;
    void *place = mmap(NULL, PAIRS * sizeof(struct pair), PROT_READ, MAP_SHARED, file, 0);
    close(file);
    if (place != MAP_FAILED)
        pairs = place;
}

static int64_t seconds_ahead(void)
{
    int64_t self = getpid();
    for (int i = 0; pairs && i < PAIRS && pairs[i].process; i++)
        if (pairs[i].process == self)
            return pairs[i].seconds;
    return 0;
}

int clock_gettime(clockid_t clock, struct timespec *now)
{
    int status = syscall(SYS_clock_gettime, clock, now);
    if (status == 0 && (clock == CLOCK_REALTIME || clock == CLOCK_REALTIME_COARSE))
        now->tv_sec += seconds_ahead();
    return status;
}

int gettimeofday(struct timeval *restrict now, void *restrict zone)
{
    (void)zone;
    struct timespec exact;
    if (clock_gettime(CLOCK_REALTIME, &exact) != 0)
        return -1;
    now->tv_sec = exact.tv_sec;
    now->tv_usec = exact.tv_nsec / 1000;
    return 0;
}

time_t time(time_t *place)
{
    struct timespec exact;
    if (clock_gettime(CLOCK_REALTIME, &exact) != 0)
        return (time_t)-1;
    if (place)
        *place = exact.tv_sec;
    return exact.tv_sec;
}
