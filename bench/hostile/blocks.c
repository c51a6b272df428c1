/* Lets AFL++ fuzz the program it is loaded before, as it was built: a trap at the first byte of each block of its code tells which
   blocks a run comes to, and each run is a fork of a process that has all traps set.
   BLOCKS is the file of the blocks' addresses, 4 bytes each, INPUT that of the input, whose parts, divided by lines '%%', become
   the files 1, 2, .. of the folder; with STREAM set the program's connection is sent the input in their place.
   Where runs are asked for by `forks.h`, REACHED is the file of 65,536 bytes, of which each is 1 that a run comes to.
   A trap is taken out in the run that comes to it, and for good where COMMON runs (200 where it is not given; 0: never) came to it, which are then fast.
   A run with another status than 0, 1 or 3, and one that took more than KILOBYTES, is told as a crash. */
#define _GNU_SOURCE
#include "forks.h"
#include <link.h>
#include <signal.h>
#include <stdint.h>
#include <sys/shm.h>
#include <sys/stat.h>
#include <ucontext.h>

enum { MAP = 65536, KILOBYTES = 500000, FROM = 198, TO = 199, LONGEST = 1 << 20 };

static uint8_t *map, *text, *original;
static uint32_t *place_of, *hits, *blocks, count, size;
static char *input, *given;
static size_t length;
static long common = 200;

/* The program's code: its address and size. */
static int code(struct dl_phdr_info *info, size_t ignored, void *also) {
    for (int at = 0; at < info->dlpi_phnum; at++) {
        const ElfW(Phdr) *part = &info->dlpi_phdr[at];
        if (part->p_type != PT_LOAD || !(part->p_flags & PF_X)) continue;
        uintptr_t start = (info->dlpi_addr + part->p_vaddr) & ~4095ul;
        text = (uint8_t *)start;
        size = info->dlpi_addr + part->p_vaddr + part->p_memsz - start;
        *(uintptr_t *)also = info->dlpi_addr;
    }
    return 1; // the first is the program
}

static void trapped(int number, siginfo_t *info, void *context) {
    greg_t *registers = ((ucontext_t *)context)->uc_mcontext.gregs;
    uint8_t *address = (uint8_t *)registers[REG_RIP] - 1;
    if (address < text || address >= text + size) abort();
    uint32_t place = place_of[address - text];
    *address = original[address - text];
    registers[REG_RIP]--;
    map[place % MAP] = 1;
    __atomic_fetch_add(&hits[place], 1, __ATOMIC_RELAXED);
}

static void *shared(size_t bytes) { return mmap(0, bytes, PROT_READ | PROT_WRITE, MAP_SHARED | MAP_ANONYMOUS, -1, 0); }

static size_t taken(const char *path, char *bytes, size_t most) {
    int file = open(path, O_RDONLY);
    size_t had = 0;
    for (ssize_t more; file >= 0 && (more = read(file, bytes + had, most - had)) > 0;) had += more;
    close(file);
    return had;
}

/* Sets all traps. */
static void lay(const char *path) {
    uintptr_t base = 0;
    dl_iterate_phdr(code, &base);
    struct stat found;
    if (stat(path, &found)) abort();
    count = found.st_size / 4;
    blocks = shared(found.st_size), hits = shared(found.st_size);
    place_of = shared(4ul * size), original = shared(size);
    taken(path, (char *)blocks, found.st_size);
    memcpy(original, text, size);
    if (mprotect(text, size, PROT_READ | PROT_WRITE | PROT_EXEC)) abort();
    struct sigaction act = {.sa_sigaction = trapped, .sa_flags = SA_SIGINFO | SA_NODEFER};
    sigaction(SIGTRAP, &act, 0);
    for (uint32_t at = 0; at < count; at++) {
        uint32_t offset = base + blocks[at] - (uintptr_t)text;
        blocks[at] = offset, place_of[offset] = at, text[offset] = 0xcc;
    }
}

/* Takes out what many runs came to. */
static void thin(void) {
    if (common == 0) return;
    for (uint32_t at = 0; at < count; at++)
        if ((long)hits[at] >= common) text[blocks[at]] = original[blocks[at]];
}

/* Writes the parts of the input. */
static void divide(void) {
    char name[2] = "1", *from = input, *end = input + length;
    for (; name[0] <= '9'; name[0]++) {
        char *next = from;
        while (next < end && !(next + 3 <= end && memcmp(next, "%%\n", 3) == 0 && (next == from || next[-1] == '\n'))) next++;
        int file = open(name, O_WRONLY | O_CREAT | O_TRUNC, 0644);
        if (file < 0 || write(file, from, next - from) != next - from) _exit(0);
        close(file);
        if (next >= end) break;
        from = next + 3;
    }
    for (name[0]++; name[0] <= '9'; name[0]++) unlink(name);
}

/* The status of a run, or that of a crash. */
static int judged(int status, long kilobytes) {
    int code = WEXITSTATUS(status);
    if (WIFEXITED(status) && kilobytes > KILOBYTES) return SIGUSR1;
    return WIFEXITED(status) && code != 0 && code != 1 && code != 3 ? SIGUSR2 : status;
}

__attribute__((constructor)) static void start(void) {
    const char *segment = getenv("__AFL_SHM_ID"), *path = getenv("BLOCKS");
    if (path && getenv("FORKS")) {
        common = 0;
        lay(path);
        serve_forks();
        map = mmap(0, MAP, PROT_READ | PROT_WRITE, MAP_SHARED, open(getenv("REACHED"), O_RDWR), 0);
        return;
    }
    if (!segment || !path) return;
    unsetenv("LD_PRELOAD");
    map = shmat(atoi(segment), 0, 0);
    input = shared(LONGEST), given = getenv("INPUT");
    if (getenv("COMMON")) common = atol(getenv("COMMON"));
    lay(path);
    uint32_t word = 0;
    if (write(TO, &word, 4) != 4) return;
    for (uint32_t runs = 0; read(FROM, &word, 4) == 4; runs++) {
        if (runs % 64 == 0) thin();
        length = taken(given, input, LONGEST);
        pid_t child = fork();
        if (child == 0) {
            close(FROM), close(TO);
            map[0] = 1;
            if (getenv("STREAM")) stream_bytes = input, stream_length = length;
            else divide();
            return;
        }
        int status = 0;
        struct rusage used;
        if (child < 0 || write(TO, &child, 4) != 4 || wait4(child, &status, 0, &used) != child) _exit(1);
        status = judged(status, used.ru_maxrss);
        if (write(TO, &status, 4) != 4) _exit(1);
    }
    _exit(0);
}
