// The kernel's part in running a program: loads it with its dynamic linker, and answers its system calls.
//
// One process with one thread. Mappings are never given twice, so that fresh memory holds zeros; nothing is unmapped or
// protected. Files are opened for reading alone. What isn't known is answered with ENOSYS and counted.
#include "linux.h"

#include <dirent.h>
#include <elf.h>
#include <errno.h>
#include <fcntl.h>
#include <limits.h>
#include <stdio.h>
#include <stdlib.h>
#include <string.h>
#include <sys/random.h>
#include <sys/stat.h>
#include <sys/syscall.h>
#include <sys/sysinfo.h>
#include <sys/utsname.h>
#include <time.h>
#include <unistd.h>

enum { ALIGNMENT = 1 << 16, HEAP_LENGTH = 64 << 20, STACK_LENGTH = 8 << 20 };

int exited, exit_status;
uint64_t unknown_calls;

static const char *file_root, *program_path;
static uint64_t next_mapping = ORIGIN + ALIGNMENT;
static uint64_t heap_start, heap_end;

static uint64_t rounded_up(uint64_t length) {
    return (length + ALIGNMENT - 1) / ALIGNMENT * ALIGNMENT;
}

static uint64_t fresh_mapping(uint64_t length) {
    uint64_t place = next_mapping;
    next_mapping += rounded_up(length);
    if (length > MEMORY_LENGTH || next_mapping > ORIGIN + MEMORY_LENGTH - STACK_LENGTH)
        fail("the program needs more memory than its window has");
    return place;
}

static void clear(uint64_t address, uint64_t length) {
    static const uint8_t zeros[4096];
    for (; length > sizeof zeros; address += sizeof zeros, length -= sizeof zeros)
        guest_write(address, zeros, sizeof zeros);
    guest_write(address, zeros, length);
}

// Reads a file's bytes from an offset on, as far as there are any. Returns how many, or -1.
static int64_t read_into(int file, uint64_t offset, uint64_t address, uint64_t length) {
    static uint8_t buffer[1 << 16];
    uint64_t done = 0;
    while (done < length) {
        uint64_t part = length - done < sizeof buffer ? length - done : sizeof buffer;
        ssize_t got = pread(file, buffer, part, (off_t)(offset + done));
        if (got < 0)
            return -1;
        if (got == 0)
            break;
        guest_write(address + done, buffer, (size_t)got);
        done += (uint64_t)got;
    }
    return (int64_t)done;
}

// The host's path for a guest's.
static const char *host_path(const char *path) {
    static char below[PATH_MAX];
    if (path[0] != '/')
        return path;
    if (snprintf(below, sizeof below, "%s%s", file_root, path) >= (int)sizeof below)
        return path;
    return faccessat(AT_FDCWD, below, F_OK, AT_SYMLINK_NOFOLLOW) == 0 ? below : path;
}

static const char *guest_path(uint64_t address) {
    static char path[PATH_MAX];
    for (size_t i = 0; i < sizeof path; i++) {
        path[i] = *(char *)guest_bytes(address + i, 1);
        if (path[i] == 0)
            return path;
    }
    fail("a path without an end");
}

// Programs

struct image {
    uint64_t base, entry, headers, header_count;
    char interpreter[PATH_MAX];
};

// Loads a position-independent ELF file for AArch64.
static struct image load_file(const char *path) {
    struct image image = {0};
    Elf64_Ehdr header;
    Elf64_Phdr segments[32];
    int file = open(host_path(path), O_RDONLY | O_CLOEXEC);
    if (file < 0 || pread(file, &header, sizeof header, 0) != sizeof header)
        fail("%s can't be read", path);
    if (memcmp(header.e_ident, ELFMAG, SELFMAG) != 0 || header.e_machine != EM_AARCH64 || header.e_type != ET_DYN)
        fail("%s is no position-independent program for AArch64", path);
    ssize_t length = header.e_phnum * (ssize_t)sizeof *segments;
    if (header.e_phnum > 32 || pread(file, segments, (size_t)length, (off_t)header.e_phoff) != length)
        fail("%s has too many segments", path);
    uint64_t end = 0;
    for (int i = 0; i < header.e_phnum; i++)
        if (segments[i].p_type == PT_LOAD)
            end = segments[i].p_vaddr + segments[i].p_memsz;
    image.base = fresh_mapping(end);
    for (int i = 0; i < header.e_phnum; i++) {
        if (segments[i].p_type == PT_LOAD)
            read_into(file, segments[i].p_offset, image.base + segments[i].p_vaddr, segments[i].p_filesz);
        if (segments[i].p_type == PT_INTERP && segments[i].p_filesz < sizeof image.interpreter
            && pread(file, image.interpreter, segments[i].p_filesz, (off_t)segments[i].p_offset) < 0)
            fail("%s can't be read", path);
    }
    close(file);
    image.entry = image.base + header.e_entry;
    image.headers = image.base + header.e_phoff;
    image.header_count = header.e_phnum;
    return image;
}

static uint64_t push(uint64_t *stack, const void *bytes, size_t length) {
    *stack -= length;
    guest_write(*stack, bytes, length);
    return *stack;
}

struct entry load_program(const char *root, char **arguments, uint64_t capabilities) {
    file_root = root;
    program_path = arguments[0];
    struct image program = load_file(program_path);
    struct image linker = load_file(program.interpreter);
    heap_start = heap_end = fresh_mapping(HEAP_LENGTH);

    // The start of a process, from high to low: texts, then the auxiliary vector, the environment and the arguments.
    static const char *const environment[] = {"LC_ALL=C", "PATH=/usr/bin"};
    uint64_t stack = ORIGIN + MEMORY_LENGTH - 16, words[256];
    size_t count = 0;
    uint8_t seed[16];
    if (getrandom(seed, sizeof seed, 0) != sizeof seed)
        fail("no random bytes");
    uint64_t random = push(&stack, seed, sizeof seed), platform = push(&stack, "aarch64", 8);
    for (words[count++] = 0; arguments[words[0]] != NULL && count < 128; words[0]++)
        words[count++] = push(&stack, arguments[words[0]], strlen(arguments[words[0]]) + 1);
    words[count++] = 0;
    for (size_t i = 0; i < 2; i++)
        words[count++] = push(&stack, environment[i], strlen(environment[i]) + 1);
    words[count++] = 0;
    const uint64_t auxiliary[][2] = {
        {AT_PHDR, program.headers}, {AT_PHENT, sizeof(Elf64_Phdr)}, {AT_PHNUM, program.header_count}, {AT_BASE, linker.base},
        {AT_ENTRY, program.entry}, {AT_PAGESZ, 4096}, {AT_HWCAP, capabilities}, {AT_RANDOM, random}, {AT_PLATFORM, platform},
        {AT_EXECFN, words[1]}, {AT_UID, 0}, {AT_EUID, 0}, {AT_GID, 0}, {AT_EGID, 0}, {AT_SECURE, 0}, {AT_NULL, 0}};
    memcpy(words + count, auxiliary, sizeof auxiliary);
    count += sizeof auxiliary / sizeof *words;
    stack = (stack - count * sizeof *words) / 16 * 16;
    guest_write(stack, words, count * sizeof *words);
    return (struct entry){linker.entry, stack};
}

// Calls

// Those of arm64, by their numbers.
enum {
    GETCWD = 17, FCNTL = 25, IOCTL = 29, STATFS = 43, FSTATFS = 44, FACCESSAT = 48, OPENAT = 56, CLOSE = 57,
    GETDENTS64 = 61, LSEEK = 62, READ = 63, WRITE = 64, WRITEV = 66, PREAD64 = 67, PSELECT6 = 72, READLINKAT = 78,
    NEWFSTATAT = 79, FSTAT = 80, EXIT = 93, EXIT_GROUP = 94, SET_TID_ADDRESS = 96, FUTEX = 98, SET_ROBUST_LIST = 99,
    CLOCK_GETTIME = 113, RT_SIGACTION = 134, RT_SIGPROCMASK = 135, UNAME = 160, UMASK = 166, PRCTL = 167,
    GETTIMEOFDAY = 169, GETPID = 172, GETPPID = 173, GETUID = 174, GETEUID = 175, GETGID = 176, GETEGID = 177, GETTID = 178,
    SYSINFO = 179, SOCKET = 198, BRK = 214, MUNMAP = 215, MREMAP = 216, MMAP = 222, MPROTECT = 226, MADVISE = 233,
    PRLIMIT64 = 261, GETRANDOM = 278, RSEQ = 293, FACCESSAT2 = 439
};

// Linux answers with a number, or the negative of an errno.
static uint64_t answer(int64_t result) {
    return (uint64_t)(result < 0 ? -errno : result);
}

static uint64_t refused(int error) {
    return -(uint64_t)error;
}

static uint64_t open_file(int folder, const char *path, int flags) {
    enum { GUEST_DIRECTORY = 040000 };
    if ((flags & O_ACCMODE) != O_RDONLY && strcmp(path, "/dev/null") != 0)
        return refused(EACCES);
    return answer(openat(folder, host_path(path),
        (flags & O_ACCMODE) | O_CLOEXEC | (flags & GUEST_DIRECTORY ? O_DIRECTORY : 0)));
}

static uint64_t control_file(const uint64_t *a) {
    int command = (int)a[1];
    int is_done = command == F_DUPFD || command == F_DUPFD_CLOEXEC || command == F_GETFD || command == F_GETFL;
    return is_done ? answer(fcntl((int)a[0], command, (int)a[2])) : 0;
}

// Reads by any call that fills a buffer, and hands the bytes on.
static uint64_t fill(uint64_t address, int64_t (*call)(int, void *, size_t), int file, uint64_t length) {
    static uint8_t buffer[1 << 16];
    int64_t got = call(file, buffer, length < sizeof buffer ? length : sizeof buffer);
    if (got > 0)
        guest_write(address, buffer, (size_t)got);
    return answer(got);
}

static int64_t read_file(int file, void *buffer, size_t length) {
    return read(file, buffer, length);
}

static int64_t read_folder(int file, void *buffer, size_t length) {
    return syscall(SYS_getdents64, file, buffer, length);
}

static int64_t read_random(int file, void *buffer, size_t length) {
    (void)file;
    return getrandom(buffer, length, 0);
}

static uint64_t write_parts(int file, uint64_t parts, uint64_t count) {
    uint64_t total = 0;
    for (uint64_t i = 0; i < count; i++) {
        uint64_t part[2];
        memcpy(part, guest_bytes(parts + 16 * i, sizeof part), sizeof part);
        ssize_t written = write(file, guest_bytes(part[0], part[1]), part[1]);
        if (written < 0)
            return answer(-1);
        total += (uint64_t)written;
    }
    return total;
}

// What arm64 calls struct stat.
static uint64_t put_status(int64_t failed, const struct stat *found, uint64_t address) {
    if (failed != 0)
        return answer(failed);
    struct {
        uint64_t device, node;
        uint32_t mode, links, user, group;
        uint64_t special, unused;
        int64_t size;
        int32_t block_size, unused2;
        int64_t blocks, times[6];
        uint32_t unused3[2];
    } put = {found->st_dev, found->st_ino, found->st_mode, (uint32_t)found->st_nlink, found->st_uid, found->st_gid,
        found->st_rdev, 0, found->st_size, (int32_t)found->st_blksize, 0, found->st_blocks,
        {found->st_atim.tv_sec, found->st_atim.tv_nsec, found->st_mtim.tv_sec, found->st_mtim.tv_nsec,
            found->st_ctim.tv_sec, found->st_ctim.tv_nsec}, {0, 0}};
    guest_write(address, &put, sizeof put);
    return 0;
}

static uint64_t file_status(const uint64_t *a) {
    struct stat found;
    const char *path = guest_path(a[1]);
    int64_t failed = *path == 0 ? fstat((int)a[0], &found) : fstatat((int)a[0], host_path(path), &found, (int)a[3]);
    return put_status(failed, &found, a[2]);
}

static uint64_t read_link(const uint64_t *a) {
    char target[PATH_MAX];
    const char *path = guest_path(a[1]);
    int64_t length = (int64_t)strlen(program_path);
    if (strcmp(path, "/proc/self/exe") == 0)
        memcpy(target, program_path, (size_t)length);
    else
        length = readlinkat((int)a[0], host_path(path), target, sizeof target);
    if (length > (int64_t)a[3])
        length = (int64_t)a[3];
    if (length > 0)
        guest_write(a[2], target, (size_t)length);
    return answer(length);
}

static uint64_t map(const uint64_t *a) {
    enum { GUEST_FIXED = 0x10, GUEST_ANONYMOUS = 0x20 };
    int fixed = (a[3] & GUEST_FIXED) != 0;
    uint64_t place = fixed ? a[0] : fresh_mapping(a[1]);
    if (fixed)
        clear(place, a[1]);
    int64_t read = a[3] & GUEST_ANONYMOUS ? 0 : read_into((int)a[4], a[5], place, a[1]);
    return read < 0 ? answer(read) : place;
}

static uint64_t map_anew(uint64_t old, uint64_t old_length, uint64_t length) {
    if (rounded_up(length) <= rounded_up(old_length))
        return old;
    uint64_t place = fresh_mapping(length);
    guest_write(place, guest_bytes(old, old_length), old_length);
    return place;
}

static uint64_t set_heap_end(uint64_t end) {
    if (end < heap_start || end > heap_start + HEAP_LENGTH)
        return heap_end;
    if (end > heap_end)
        clear(heap_end, end - heap_end);
    return heap_end = end;
}

static uint64_t put_time(int clock, uint64_t address, int64_t unit) {
    struct timespec now;
    int64_t failed = clock_gettime(clock, &now);
    int64_t put[2] = {now.tv_sec, now.tv_nsec / unit};
    if (failed == 0 && address != 0)
        guest_write(address, put, sizeof put);
    return answer(failed);
}

static uint64_t put_limit(uint64_t address) {
    const uint64_t limit[2] = {STACK_LENGTH, STACK_LENGTH};
    if (address != 0)
        guest_write(address, limit, sizeof limit);
    return 0;
}

static uint64_t put_names(uint64_t address) {
    struct utsname names = {.sysname = "Linux", .nodename = "host", .release = "6.1.0", .version = "#1", .machine = "aarch64"};
    guest_write(address, &names, sizeof names);
    return 0;
}

static uint64_t put_sizes(uint64_t address) {
    struct sysinfo sizes = {.totalram = MEMORY_LENGTH, .freeram = MEMORY_LENGTH, .procs = 1, .mem_unit = 1};
    guest_write(address, &sizes, sizeof sizes);
    return 0;
}

static uint64_t put_folder(uint64_t address, uint64_t length) {
    if (length < 2)
        return refused(ERANGE);
    guest_write(address, "/", 2);
    return 2;
}

// What one of the following gives for a call that isn't its own. No call answers so: the numbers of errors end at 4095.
static const uint64_t not_here = -(uint64_t)4096;

static uint64_t file_call(uint64_t number, const uint64_t *a) {
    struct stat found;
    switch (number) {
    case OPENAT:
        return open_file((int)a[0], guest_path(a[1]), (int)a[2]);
    case CLOSE:
        return a[0] > 2 ? answer(close((int)a[0])) : 0;
    case READ:
        return fill(a[1], read_file, (int)a[0], a[2]);
    case GETDENTS64:
        return fill(a[1], read_folder, (int)a[0], a[2]);
    case PREAD64:
        return answer(read_into((int)a[0], a[3], a[1], a[2]));
    case WRITE:
        return answer(write((int)a[0], guest_bytes(a[1], a[2]), a[2]));
    case WRITEV:
        return write_parts((int)a[0], a[1], a[2]);
    case FCNTL:
        return control_file(a);
    case LSEEK:
        return answer(lseek((int)a[0], (off_t)a[1], (int)a[2]));
    case FSTAT:
        return put_status(fstat((int)a[0], &found), &found, a[1]);
    case NEWFSTATAT:
        return file_status(a);
    case FACCESSAT:
    case FACCESSAT2:
        return answer(faccessat((int)a[0], host_path(guest_path(a[1])), (int)a[2], 0));
    case READLINKAT:
        return read_link(a);
    default:
        return not_here;
    }
}

static uint64_t memory_call(uint64_t number, const uint64_t *a) {
    enum { GUEST_DONTNEED = 4 };
    switch (number) {
    case MMAP:
        return map(a);
    case MREMAP:
        return map_anew(a[0], a[1], a[2]);
    case BRK:
        return set_heap_end(a[0]);
    case MADVISE:
        if (a[2] == GUEST_DONTNEED)
            clear(a[0], a[1]);
        return 0;
    case MPROTECT:
    case MUNMAP:
        return 0;
    default:
        return not_here;
    }
}

// What a program asks about itself and where it runs.
static uint64_t question(uint64_t number, const uint64_t *a) {
    switch (number) {
    case GETRANDOM:
        return fill(a[0], read_random, 0, a[1]);
    case GETCWD:
        return put_folder(a[0], a[1]);
    case CLOCK_GETTIME:
        return put_time((int)a[0], a[1], 1);
    case GETTIMEOFDAY:
        return put_time(CLOCK_REALTIME, a[0], 1000);
    case PRLIMIT64:
        return put_limit(a[3]);
    case UNAME:
        return put_names(a[0]);
    case SYSINFO:
        return put_sizes(a[0]);
    case GETPID:
    case GETTID:
    case SET_TID_ADDRESS:
        return 2;
    case GETPPID:
        return 1;
    case GETEGID:
    case GETEUID:
    case GETGID:
    case GETUID:
        return 0;
    default:
        return not_here;
    }
}

// What is taken without doing anything, as one process with one thread can, and what is refused.
static uint64_t plain_answer(uint64_t number) {
    switch (number) {
    case FUTEX:
    case PRCTL:
    case PSELECT6: // time passes at once
    case RT_SIGACTION:
    case RT_SIGPROCMASK:
    case SET_ROBUST_LIST:
    case UMASK:
        return 0;
    case IOCTL:
        return refused(ENOTTY);
    case SOCKET:
        return refused(EAFNOSUPPORT);
    case FSTATFS:
    case RSEQ:
    case STATFS:
        return refused(ENOSYS);
    default:
        unknown_calls++;
        fprintf(stderr, "lockstep: system call %d isn't known\n", (int)number);
        return refused(ENOSYS);
    }
}

uint64_t system_call(uint64_t number, const uint64_t *a) {
    if (number == EXIT || number == EXIT_GROUP) {
        exited = 1;
        exit_status = (int)a[0];
        return 0;
    }
    uint64_t result = file_call(number, a);
    if (result == not_here)
        result = memory_call(number, a);
    if (result == not_here)
        result = question(number, a);
    return result == not_here ? plain_answer(number) : result;
}
