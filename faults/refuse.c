// Is placed between the built program and the C library, and makes calls fail: of CALL the one whose number is NUMBER,
// and those after it until TIMES have failed (one, if TIMES is not given); none if NUMBER is 0.
//
//   memory  malloc and realloc: there is none
//   read    a read of standard input fails; if PART is given, each of them takes at most so many bytes
//   write   a write to standard output fails
//   short   such a write does not fail, and takes one byte
//   accept  an accept of a connection fails
//   receive a read of a connection fails
//   send    a write to a connection fails
//   piece   such a write does not fail, and takes one byte
//   bytes   a write to standard output that comes to this byte takes those before it, and from then on all of them fail
//   disk    a call that changes a file (pwrite, ftruncate) or syncs it (fsync, fdatasync) fails
//   stop    before such a call the process is killed
//   halt    before such a call the process stops, until it is continued
//   lose    the same, and each file loses what was changed since its last sync; also when the program has ended
//
// If PAGE names a file of four numbers of 64 bits (calls so far, NUMBER, TIMES, failures), these are read and written
// there at each call, so that another process sees them, and can change what fails meanwhile.
#define _GNU_SOURCE
#include <dlfcn.h>
#include <errno.h>
#include <fcntl.h>
#include <signal.h>
#include <stdlib.h>
#include <string.h>
#include <sys/mman.h>
#include <sys/socket.h>
#include <sys/stat.h>
#include <unistd.h>

enum { CHANGES = 4096, FILES = 16 };

struct page {
    long seen, number, times, failed;
};

// A file that was changed, by a descriptor of our own, which stays open.
struct file {
    ino_t inode;
    int number;
};

// A change of a file that no sync came after: what was there, and how long the file was; none if there is no file.
struct change {
    struct file *file;
    off_t at, length;
    size_t kept;
    char *bytes;
};

static struct page own, *page;
static const char *wanted;
static struct file files[FILES];
static struct change changes[CHANGES];
static int opened, changed;

static long number_of(const char *name, long otherwise) {
    const char *value = getenv(name);
    return value == 0 ? otherwise : atol(value);
}

// Reads the environment, once.
static void begin(void) {
    static int begun;
    if (begun) return;
    begun = 1;
    page = &own;
    wanted = getenv("CALL");
    own.number = number_of("NUMBER", 0);
    own.times = number_of("TIMES", 1);
    int file = getenv("PAGE") == 0 ? -1 : open(getenv("PAGE"), O_RDWR | O_CLOEXEC);
    if (file < 0) return;
    void *shared = mmap(0, sizeof own, PROT_READ | PROT_WRITE, MAP_SHARED, file, 0);
    if (shared != MAP_FAILED) page = shared;
    close(file);
}

static int is(const char *call) {
    begin();
    return wanted != 0 && strcmp(wanted, call) == 0;
}

// Whether this call is one that fails.
static int is_refused(const char *call) {
    if (!is(call)) return 0;
    page->seen++;
    if (page->number == 0 || page->seen < page->number || page->seen - page->number >= page->times) return 0;
    page->failed++;
    return 1;
}

// The function of the C library that this one replaces.
#define NEXT(type, name, ...)                          \
    static type (*next)(__VA_ARGS__);                  \
    if (next == 0) next = dlsym(RTLD_NEXT, #name)

void *malloc(size_t size) {
    NEXT(void *, malloc, size_t);
    if (!is_refused("memory")) return next(size);
    errno = ENOMEM;
    return 0;
}

void *realloc(void *block, size_t size) {
    NEXT(void *, realloc, void *, size_t);
    if (!is_refused("memory")) return next(block, size);
    errno = ENOMEM;
    return 0;
}

ssize_t read(int file, void *bytes, size_t count) {
    NEXT(ssize_t, read, int, void *, size_t);
    if (file != 0 || !is("read")) return next(file, bytes, count);
    size_t part = number_of("PART", count);
    if (!is_refused("read")) return next(file, bytes, count < part ? count : part);
    errno = EIO;
    return -1;
}

ssize_t write(int file, const void *bytes, size_t count) {
    NEXT(ssize_t, write, int, const void *, size_t);
    if (file != 1) return next(file, bytes, count);
    if (is("bytes") && page->number > 0) {
        long left = page->number - 1 - page->seen;
        if (count == 0 || (long)count <= left) {
            page->seen += count;
            return next(file, bytes, count);
        }
        page->failed++;
        page->seen = page->number - 1;
        if (left > 0) return next(file, bytes, left);
    } else if (count > 1 && is_refused("short")) {
        return next(file, bytes, 1);
    } else if (!is_refused("write")) {
        return next(file, bytes, count);
    }
    errno = EIO;
    return -1;
}

int accept4(int file, struct sockaddr *address, socklen_t *length, int flags) {
    NEXT(int, accept4, int, struct sockaddr *, socklen_t *, int);
    if (!is_refused("accept")) return next(file, address, length, flags);
    errno = EMFILE;
    return -1;
}

ssize_t recv(int file, void *bytes, size_t count, int flags) {
    NEXT(ssize_t, recv, int, void *, size_t, int);
    if (!is_refused("receive")) return next(file, bytes, count, flags);
    errno = ECONNRESET;
    return -1;
}

ssize_t send(int file, const void *bytes, size_t count, int flags) {
    NEXT(ssize_t, send, int, const void *, size_t, int);
    if (count > 1 && is_refused("piece")) return next(file, bytes, 1, flags);
    if (!is_refused("send")) return next(file, bytes, count, flags);
    errno = ECONNRESET;
    return -1;
}

// The file of a descriptor of the program, or none if it was never changed and is not about to be.
static struct file *file_of(int number, int is_changed) {
    struct stat state;
    if (fstat(number, &state) != 0) abort();
    for (int at = 0; at < opened; at++)
        if (files[at].inode == state.st_ino) return &files[at];
    if (!is_changed) return 0;
    // (a descriptor of the program has at most two digits)
    char path[] = "/proc/self/fd/00";
    if (number > 99) abort();
    path[sizeof path - 3] += number / 10;
    path[sizeof path - 2] += number % 10;
    if (number < 10) memmove(path + sizeof path - 3, path + sizeof path - 2, 2);
    int own_number = open(path, O_RDWR | O_CLOEXEC);
    if (opened == FILES || own_number < 0) abort();
    files[opened] = (struct file){.inode = state.st_ino, .number = own_number};
    return &files[opened++];
}

// Keeps what a change of a file is about to take away: the bytes from there on, so many, and the length.
static void keep(int number, off_t at, size_t count) {
    ssize_t (*read_at)(int, void *, size_t, off_t) = dlsym(RTLD_NEXT, "pread");
    struct stat state;
    if (changed == CHANGES || fstat(number, &state) != 0) abort();
    struct change *change = &changes[changed++];
    *change = (struct change){.file = file_of(number, 1), .at = at, .length = state.st_size};
    if (at >= state.st_size || count == 0) return;
    if ((off_t)count > state.st_size - at) count = state.st_size - at;
    change->bytes = mmap(0, count, PROT_READ | PROT_WRITE, MAP_PRIVATE | MAP_ANONYMOUS, -1, 0);
    if (change->bytes == MAP_FAILED || read_at(number, change->bytes, count, at) != (ssize_t)count) abort();
    change->kept = count;
}

// Takes back what was changed since the last sync of each file, the latest change first.
static void lose(void) {
    ssize_t (*write_at)(int, const void *, size_t, off_t) = dlsym(RTLD_NEXT, "pwrite");
    int (*cut)(int, off_t) = dlsym(RTLD_NEXT, "ftruncate");
    while (changed > 0) {
        struct change *change = &changes[--changed];
        if (change->file == 0) continue;
        int number = change->file->number;
        if (cut(number, change->length) != 0) abort();
        if (change->kept == 0) continue;
        if (write_at(number, change->bytes, change->kept, change->at) != (ssize_t)change->kept) abort();
    }
}

__attribute__((destructor)) static void end(void) {
    if (!is("lose") || page->number == 0) return;
    lose();
    page->failed++;
}

// Whether a call that changes a file or syncs it fails; if the process is to stop before it, it ends here.
static int is_disk_refused(void) {
    int loses = is_refused("lose");
    if (loses) lose();
    if (loses || is_refused("stop")) kill(getpid(), SIGKILL);
    if (is_refused("halt")) kill(getpid(), SIGSTOP);
    return is_refused("disk");
}

ssize_t pwrite(int file, const void *bytes, size_t count, off_t at) {
    NEXT(ssize_t, pwrite, int, const void *, size_t, off_t);
    if (!is_disk_refused()) {
        if (is("lose")) keep(file, at, count);
        return next(file, bytes, count, at);
    }
    errno = EIO;
    return -1;
}

int ftruncate(int file, off_t length) {
    NEXT(int, ftruncate, int, off_t);
    if (!is_disk_refused()) {
        struct stat state;
        if (is("lose") && fstat(file, &state) == 0) {
            keep(file, length, state.st_size > length ? state.st_size - length : 0);
        }
        return next(file, length);
    }
    errno = EIO;
    return -1;
}

// The disk has what was written to the file.
static void settle(int number) {
    struct file *file = file_of(number, 0);
    for (int at = 0; at < changed; at++)
        if (changes[at].file == file) changes[at].file = 0;
}

int fsync(int file) {
    NEXT(int, fsync, int);
    if (!is_disk_refused()) {
        if (is("lose")) settle(file);
        return next(file);
    }
    errno = EIO;
    return -1;
}

int fdatasync(int file) {
    NEXT(int, fdatasync, int);
    if (!is_disk_refused()) {
        if (is("lose")) settle(file);
        return next(file);
    }
    errno = EIO;
    return -1;
}
