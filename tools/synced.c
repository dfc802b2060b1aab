// A library for LD_PRELOAD that counts a program's syncs of files (fdatasync) that succeeded, for tools/killed_jobs.
// SYNCED_COUNT=FILE names a file of 8 bytes, in which the count stands, low byte first. The file is mapped, so that the count
// outlives a program that is killed: each sync that the program knew of is in it, and at most one more.
#define _GNU_SOURCE
#include <dlfcn.h>
#include <fcntl.h>
#include <stdlib.h>
#include <sys/mman.h>
#include <unistd.h>

static unsigned long *count;

__attribute__((constructor)) static void begin(void) {
    const char *name = getenv("SYNCED_COUNT");
    int file = name ? open(name, O_RDWR) : -1;
    void *at = file < 0 ? MAP_FAILED : mmap(0, sizeof *count, PROT_READ | PROT_WRITE, MAP_SHARED, file, 0);
    if (at == MAP_FAILED)
        abort();
    count = at;
    close(file);
}

int fdatasync(int file) {
    int status = ((int (*)(int))dlsym(RTLD_NEXT, "fdatasync"))(file);
    if (status == 0)
        __atomic_add_fetch(count, 1, __ATOMIC_SEQ_CST);
    return status;
}
