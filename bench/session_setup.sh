# What the measurements of sessions share. A script sources this after `set -eu`: it finds the program, DENSEWH where
# that is set, makes a temporary folder, and builds there what times a program's calls on its store, where clang is.
top=$(cd "$(dirname "$0")/.." && pwd)
program=${DENSEWH:-$top/crates/densewh/out/densewh}
[ -x "$program" ] || { echo "build the program first: make demo; or name one as DENSEWH"; exit 1; }
work=$(mktemp -d)
trap 'rm -rf "$work"' EXIT
grep -m1 'model name' /proc/cpuinfo | sed 's/.*: /processor: /'
echo "load average of the machine: $(cut -d ' ' -f 1-3 /proc/loadavg), cores: $(nproc)"

cat >"$work/store_calls.c" <<'C'
// Times the calls that write or sync a file: nanoseconds of the processor and of the clock, in the file STORE_CALLS.
#define _GNU_SOURCE
#include <dlfcn.h>
#include <fcntl.h>
#include <stdint.h>
#include <stdlib.h>
#include <sys/mman.h>
#include <time.h>
#include <unistd.h>

static struct {
    uint64_t busy, wall;
} unseen, *seen = &unseen;

__attribute__((constructor)) static void begin(void) {
    int file = open(getenv("STORE_CALLS"), O_RDWR);
    void *place = mmap(0, sizeof *seen, PROT_READ | PROT_WRITE, MAP_SHARED, file, 0);
    if (place != MAP_FAILED) seen = place;
    if (file >= 0) close(file);
}

static uint64_t now(clockid_t clock) {
    struct timespec time;
    clock_gettime(clock, &time);
    return time.tv_sec * 1000000000ull + time.tv_nsec;
}

#define TIMED(type, name, declared, given) \
    type name declared { \
        static type(*real) declared; \
        if (!real) real = dlsym(RTLD_NEXT, #name); \
        uint64_t busy = now(CLOCK_THREAD_CPUTIME_ID), wall = now(CLOCK_MONOTONIC); \
        type answer = real given; \
        seen->busy += now(CLOCK_THREAD_CPUTIME_ID) - busy; \
        seen->wall += now(CLOCK_MONOTONIC) - wall; \
        return answer; \
    }
TIMED(ssize_t, pwrite, (int file, const void *bytes, size_t size, off_t at), (file, bytes, size, at))
TIMED(ssize_t, pwrite64, (int file, const void *bytes, size_t size, off64_t at), (file, bytes, size, at))
TIMED(int, fsync, (int file), (file))
TIMED(int, fdatasync, (int file), (file))
TIMED(int, ftruncate, (int file, off_t size), (file, size))
TIMED(int, ftruncate64, (int file, off64_t size), (file, size))
C
clang -O2 -shared -fPIC -o "$work/store_calls.so" "$work/store_calls.c" 2>/dev/null ||
    echo "without clang: the store's writing isn't said apart"

export PROGRAM=$program WORK=$work PYTHONPATH=$top/bench PYTHONDONTWRITEBYTECODE=1
