/* Shifts the clocks of a program that is started with this library in LD_PRELOAD. The file that $CLOCK_OFFSETS names
   holds three numbers of 8 bytes, the seconds that are added to the wall clock, to the monotonic clock and to the boot
   time. The program sees each change of the file at once. */
#define _GNU_SOURCE
#include <fcntl.h>
#include <stdint.h>
#include <stdlib.h>
#include <sys/mman.h>
#include <sys/syscall.h>
#include <time.h>
#include <unistd.h>

static const int clocks[] = {CLOCK_REALTIME, CLOCK_MONOTONIC, CLOCK_BOOTTIME};
static const volatile int64_t *offsets;

__attribute__((constructor)) static void map_offsets(void) {
    int file = open(getenv("CLOCK_OFFSETS"), O_RDONLY);
    void *mapped = mmap(NULL, sizeof(int64_t[3]), PROT_READ, MAP_SHARED, file, 0);
    if (mapped == MAP_FAILED)
        abort();
    close(file);
    offsets = mapped;
}

int clock_gettime(clockid_t clock, struct timespec *time) {
    int result = (int)syscall(SYS_clock_gettime, clock, time);
    for (int each = 0; result == 0 && each < 3; each++)
        if (clock == clocks[each])
            time->tv_sec += offsets[each];
    return result;
}
