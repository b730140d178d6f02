/* A library that refuses allocations of a program. Each call of malloc and of realloc counts as one.

   REFUSE=N LD_PRELOAD=./refuse.so program
       runs the program with its Nth allocation answered by a null pointer.
   REFUSE_EACH=FILE REFUSE_FILES=PATH:PATH LD_PRELOAD=./refuse.so program 1<>OUT 2<>ERR
       runs it once, and before each allocation makes a second process of it (fork), to which this allocation is refused, and which goes on to
       its end. Then the first process goes on where it was: what the second one wrote to OUT and ERR, which are files of their own, is cut off,
       and the files named have the bytes again that they had. So an allocation is refused to a program that is, up to it, in the state in which
       one that began anew would be. Locks of the files have to be those of their descriptions, which both processes share.
       FILE gets a line for each allocation, `N STATUS STATE OUTLENGTH ERRLENGTH`, with the bytes of OUT and ERR behind it; and a line
       `state STATE LENGTH LENGTH`, with the bytes of the files behind it (-1: no file), before the first line that names that state of the files. */
#define _GNU_SOURCE
#include <dlfcn.h>
#include <fcntl.h>
#include <stdio.h>
#include <stdlib.h>
#include <string.h>
#include <sys/mman.h>
#include <sys/stat.h>
#include <sys/wait.h>
#include <unistd.h>

#define FILES 2
#define MOST (4l << 20)
#define STATES 16
#define NUMBERS 64

static unsigned long calls, refused;
static void *(*real_malloc)(size_t);
static void *(*real_realloc)(void *, size_t);

/* ---- each in turn */

struct state {
    long length[FILES];
    char *bytes[FILES];
};

static int results = -1, is_second, is_inside;
static const char *paths[FILES];
static struct state now, after, states[STATES];
static long numbers[STATES], last_state;
static char line[256];

static void stop(const char *why) {
    dprintf(2, "refuse.so: %s\n", why);
    _exit(99);
}

static struct state room(void) {
    struct state it;
    for (int i = 0; i < FILES; i++) {
        it.bytes[i] = mmap(NULL, MOST, PROT_READ | PROT_WRITE, MAP_PRIVATE | MAP_ANONYMOUS | MAP_NORESERVE, -1, 0);
        if (it.bytes[i] == MAP_FAILED) stop("no room");
        it.length[i] = -1;
    }
    return it;
}

static void look(struct state *it) {
    for (int i = 0; i < FILES; i++) {
        it->length[i] = -1;
        int file = open(paths[i], O_RDONLY | O_CLOEXEC);
        if (file < 0) continue;
        it->length[i] = pread(file, it->bytes[i], MOST, 0);
        if (it->length[i] < 0 || it->length[i] == MOST) stop("a file is too long");
        close(file);
    }
}

static int same(const struct state *a, const struct state *b) {
    for (int i = 0; i < FILES; i++)
        if (a->length[i] != b->length[i] || (a->length[i] > 0 && memcmp(a->bytes[i], b->bytes[i], a->length[i]))) return 0;
    return 1;
}

static void put(const void *bytes, long length) {
    if (length > 0 && write(results, bytes, length) != length) stop("the results can't be written");
}

/* The number of the state, which is written down if it is a new one. The first one stays known, and the last ones do. */
static long number_of(const struct state *it) {
    for (int i = 0; i < STATES; i++)
        if (states[i].bytes[0] && same(&states[i], it)) return numbers[i];
    int at = last_state ? 1 + (last_state - 1) % (STATES - 1) : 0;
    if (!states[at].bytes[0]) states[at] = room();
    for (int i = 0; i < FILES; i++) {
        states[at].length[i] = it->length[i];
        if (it->length[i] > 0) memcpy(states[at].bytes[i], it->bytes[i], it->length[i]);
    }
    numbers[at] = last_state++;
    put(line, snprintf(line, sizeof line, "state %ld %ld %ld\n", numbers[at], it->length[0], it->length[1]));
    for (int i = 0; i < FILES; i++) put(it->bytes[i], it->length[i]);
    return numbers[at];
}

/* Each file has these bytes again. It has to be the file that it was: one that was taken away can't be put back under the program. */
static void restore(const struct state *it, const ino_t *inodes) {
    for (int i = 0; i < FILES; i++) {
        struct stat is;
        if (it->length[i] < 0) {
            unlink(paths[i]);
            continue;
        }
        int file = open(paths[i], O_WRONLY | O_CLOEXEC);
        if (file < 0 || fstat(file, &is) || is.st_ino != inodes[i]) stop("a file was taken away");
        if (pwrite(file, it->bytes[i], it->length[i], 0) != it->length[i] || ftruncate(file, it->length[i])) stop("a file can't be written");
        close(file);
    }
}

static ino_t inode_of(const char *path) {
    struct stat is;
    return stat(path, &is) ? 0 : is.st_ino;
}

static void begin(const char *path, char *files) {
    unsetenv("LD_PRELOAD");
    int file = open(path, O_WRONLY | O_CREAT | O_TRUNC, 0600);
    results = fcntl(file, F_DUPFD_CLOEXEC, NUMBERS);
    if (results < 0) stop("the results can't be made");
    close(file);
    char *rest = strchr(files, ':');
    if (!rest) stop("two files are wanted");
    *rest = 0;
    paths[0] = files, paths[1] = rest + 1;
    now = room();
    after = room();
    look(&now);
    number_of(&now);
}

/* What the process printed to the file, cut off behind what it had before. */
static void cut(int file, long before, long length) {
    static char bytes[1 << 16];
    for (long at = 0; at < length;) {
        long some = pread(file, bytes, sizeof bytes, at);
        if (some <= 0) stop("what was printed can't be read");
        put(bytes, some);
        at += some;
    }
    if (ftruncate(file, before)) stop("what was printed can't be cut");
    lseek(file, before, SEEK_SET);
}

/* Whether this is the process to which the allocation is refused. */
static int is_refused(void) {
    static off_t offsets[NUMBERS];
    struct stat out, err;
    ino_t inodes[FILES];
    look(&now);
    for (int i = 0; i < FILES; i++) inodes[i] = inode_of(paths[i]);
    for (int i = 0; i < NUMBERS; i++) offsets[i] = lseek(i, 0, SEEK_CUR);
    if (fstat(1, &out) || fstat(2, &err)) stop("no standard output");
    pid_t second = fork();
    if (second < 0) stop("no second process");
    if (!second) {
        is_second = 1;
        alarm(60);
        return 1;
    }
    int status;
    if (waitpid(second, &status, 0) != second) stop("the second process is lost");
    look(&after);
    long state = number_of(&after);
    long out_length = lseek(1, 0, SEEK_END), err_length = lseek(2, 0, SEEK_END);
    put(line, snprintf(line, sizeof line, "%lu %d %ld %ld %ld\n", calls, status, state, out_length, err_length));
    cut(1, out.st_size, out_length);
    cut(2, err.st_size, err_length);
    if (!same(&after, &now)) restore(&now, inodes);
    for (int i = 0; i < NUMBERS; i++)
        if (offsets[i] >= 0) lseek(i, offsets[i], SEEK_SET);
    return 0;
}

/* ---- the calls */

static void find(void) {
    const char *text = getenv("REFUSE"), *each = getenv("REFUSE_EACH");
    refused = text ? strtoul(text, NULL, 10) : 0;
    real_realloc = (void *(*)(void *, size_t))dlsym(RTLD_NEXT, "realloc");
    real_malloc = (void *(*)(size_t))dlsym(RTLD_NEXT, "malloc");
    if (each) begin(each, getenv("REFUSE_FILES"));
}

static int is_none(void) {
    if (!real_malloc) find();
    if (is_inside) return 0;
    calls++;
    if (results < 0) return calls == refused;
    if (is_second) return 0;
    is_inside = 1;
    int is_this = is_refused();
    is_inside = 0;
    return is_this;
}

void *malloc(size_t size) { return is_none() ? NULL : real_malloc(size); }

void *realloc(void *old, size_t size) { return is_none() ? NULL : real_realloc(old, size); }
