// Holds a program's syncs of files, as a disk does that takes nothing for a while: a library that is loaded before the C library (LD_PRELOAD).
// As long as there is a file HOLD_WHILE, a sync waits; then it goes on. The first one that waits makes the file HOLD_TELLS.
#define _GNU_SOURCE
#include <fcntl.h>
#include <stdlib.h>
#include <sys/syscall.h>
#include <unistd.h>

#define LOOK_MICROSECONDS 1000

static void wait(void)
{
    const char *held = getenv("HOLD_WHILE"), *tells = getenv("HOLD_TELLS");
    while (held && access(held, F_OK) == 0) {
        int told = tells ? open(tells, O_WRONLY | O_CREAT | O_CLOEXEC, 0600) : -1;
        if (told >= 0)
            close(told);
        tells = NULL;
        usleep(LOOK_MICROSECONDS);
    }
}

int fsync(int file)
{
    wait();
    return (int)syscall(SYS_fsync, file);
}

int fdatasync(int file)
{
    wait();
    return (int)syscall(SYS_fdatasync, file);
}
