// Each sync of a file takes a millisecond more (LD_PRELOAD): a disk that is slower than this machine's.
#include <sys/syscall.h>
#include <time.h>
#include <unistd.h>

static void wait_more(void) {
    struct timespec millisecond = {0, 1000000};
    nanosleep(&millisecond, 0);
}

int fsync(int handle) {
    wait_more();
    return syscall(SYS_fsync, handle);
}

int fdatasync(int handle) {
    wait_more();
    return syscall(SYS_fdatasync, handle);
}
