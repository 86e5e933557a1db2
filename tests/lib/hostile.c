/* Refuses, fails, shortens or stops calls that a program makes of the C library. The tests preload it (shim.py): it is no part of any program.
 *
 *     HOSTILE       rules, joined by ','. A rule is CALL:WHEN:WHAT. WHEN is N, the Nth call of that name, from 1; N+, that one and all later
 *                   ones; or N-M, these. WHAT is
 *                       0     no memory is had: of malloc, realloc and so on, or of alloc, which counts all of them together
 *                       E5    the call fails with this error, and does nothing
 *                       L     it does nothing, and says that it did
 *                       s3    it moves 3 bytes at most
 *                       k3    it moves 3 bytes at most, and the process is killed
 *                       K     the process is killed before the call
 *                       S     the process is stopped before the call, until somebody continues it
 *                       t-5   the clock shows so many seconds since 1970
 *     HOSTILE_PATH  a text: of calls that take a descriptor, those count whose file has it in its path
 *     HOSTILE_LOG   a file: each call that counts is added to it, as a line `CALL N SIZE`
 *
 * Calls count that the program's own code makes. What the C library takes and calls by itself it has, so that a number means the same in
 * each run. A call that a program makes past the C library is not seen: each test asks for a least number of calls. */
#define _GNU_SOURCE
#include <dlfcn.h>
#include <errno.h>
#include <fcntl.h>
#include <link.h>
#include <pthread.h>
#include <signal.h>
#include <stdarg.h>
#include <stdatomic.h>
#include <stdio.h>
#include <stdlib.h>
#include <string.h>
#include <sys/mman.h>
#include <sys/socket.h>
#include <sys/stat.h>
#include <sys/syscall.h>
#include <sys/uio.h>
#include <time.h>
#include <unistd.h>

enum call {
    ALLOC, MALLOC, CALLOC, REALLOC, MEMALIGN, READ, PREAD, RECV, WRITE, PWRITE, WRITEV, SEND, SENDMSG, FTRUNCATE, FSYNC, FDATASYNC, RENAME, LINK,
    UNLINK, OPEN, OPENAT, STATX, GETDENTS, FLOCK, ACCEPT, BIND, LISTEN, SOCKET, CONNECT, SETSOCKOPT, MMAP, FCHMOD, FCHOWN, THREAD, CLOCK, CALLS
};
static const char *const names[CALLS] = {
    "alloc", "malloc", "calloc", "realloc", "memalign", "read", "pread", "recv", "write", "pwrite", "writev", "send", "sendmsg", "ftruncate",
    "fsync", "fdatasync", "rename", "link", "unlink", "open", "openat", "statx", "getdents64", "flock", "accept4", "bind", "listen", "socket",
    "connect", "setsockopt", "mmap", "fchmod", "fchown", "pthread_create", "clock_gettime"
};
static atomic_long counts[CALLS];

enum { RULES = 16, TEXT = 4096 };
static struct rule { int call; long first, last; char what; int value; } rules[RULES];
static int rule_count, log_file = -1, is_ready;
static const char *path_part;
static uintptr_t own_low, own_high;

/* The rules. */

static void refuse_rules(void) {
    static const char text[] = "hostile.c: no such rule\n";
    syscall(SYS_write, 2, text, sizeof text - 1);
    _exit(98);
}

static int call_named(const char *name, size_t length) {
    for (int call = 0; call < CALLS; call++)
        if (strlen(names[call]) == length && !strncmp(names[call], name, length)) return call;
    refuse_rules();
    return 0;
}

/* Reads a rule, and answers where its text ends. */
static const char *read_rule(const char *text, struct rule *rule) {
    size_t length = strcspn(text, ":,");
    char *end;
    rule->call = call_named(text, length);
    if (text[length] != ':') refuse_rules();
    rule->first = rule->last = strtol(text + length + 1, &end, 10);
    if (*end == '+') rule->last = __LONG_MAX__, end++;
    else if (*end == '-') rule->last = strtol(end + 1, &end, 10);
    if (*end != ':' || !strchr("0ELskKSt", end[1])) refuse_rules();
    rule->what = end[1];
    rule->value = (int)strtol(end + 2, &end, 10);
    return end;
}

static void read_rules(const char *text) {
    while (text && *text) {
        if (rule_count == RULES) refuse_rules();
        text = read_rule(text, &rules[rule_count++]);
        if (*text && *text++ != ',') refuse_rules();
    }
}

/* Whose calls count. */

/* The program comes first among what is loaded. */
static int note_own_code(struct dl_phdr_info *info, size_t size, void *unused) {
    (void)size, (void)unused;
    for (int part = 0; part < info->dlpi_phnum; part++) {
        if (info->dlpi_phdr[part].p_type != PT_LOAD) continue;
        uintptr_t low = info->dlpi_addr + info->dlpi_phdr[part].p_vaddr, high = low + info->dlpi_phdr[part].p_memsz;
        if (!own_low || low < own_low) own_low = low;
        if (high > own_high) own_high = high;
    }
    return 1;
}

/* The log's descriptor is a high one, so that it takes none of those that the program gets, and is left where their number is limited later. */
static int opened_log(const char *path) {
    int low = path ? (int)syscall(SYS_openat, AT_FDCWD, path, O_WRONLY | O_APPEND | O_CREAT | O_CLOEXEC, 0600) : -1;
    int high = low < 0 ? -1 : (int)syscall(SYS_fcntl, low, F_DUPFD_CLOEXEC, 900);
    if (low >= 0) syscall(SYS_close, low);
    return high;
}

__attribute__((constructor)) static void begin(void) {
    dl_iterate_phdr(note_own_code, 0);
    path_part = getenv("HOSTILE_PATH");
    log_file = opened_log(getenv("HOSTILE_LOG"));
    read_rules(getenv("HOSTILE"));
    is_ready = 1;
}

static int is_own(void *from) { return is_ready && (uintptr_t)from >= own_low && (uintptr_t)from < own_high; }

static int is_there(int file) {
    char name[64], path[TEXT];
    if (!path_part || !*path_part) return 1;
    snprintf(name, sizeof name, "/proc/self/fd/%d", file);
    ssize_t length = syscall(SYS_readlinkat, AT_FDCWD, name, path, sizeof path - 1);
    if (length < 0) return 0;
    path[length] = 0;
    return strstr(path, path_part) != 0;
}

/* A call that counts. */

static void tell(int call, long number, size_t size) {
    char line[80];
    if (log_file < 0) return;
    int length = snprintf(line, sizeof line, "%s %ld %zu\n", names[call], number, size);
    syscall(SYS_write, log_file, line, length);
}

static void end_by(int signal) { syscall(SYS_kill, getpid(), signal); }

/* Counts a call, and answers the rule that it meets. */
static const struct rule *meet(int call, size_t size) {
    long number = atomic_fetch_add(&counts[call], 1) + 1;
    tell(call, number, size);
    for (const struct rule *rule = rules; rule < rules + rule_count; rule++) {
        if (rule->call != call || number < rule->first || number > rule->last) continue;
        if (rule->what == 'K') end_by(SIGKILL);
        if (rule->what == 'S') end_by(SIGSTOP);
        return rule;
    }
    return 0;
}

#define MET(call, size) (is_own(__builtin_return_address(0)) ? meet(call, size) : 0)
#define MET_AT(call, file, size) (is_own(__builtin_return_address(0)) && is_there(file) ? meet(call, size) : 0)
#define REAL(name) ({ static __typeof__(name) *real; if (!real) real = (__typeof__(name) *)dlsym(RTLD_NEXT, #name); real; })

/* Whether it fails, with the error then. */
static int fails(const struct rule *rule) {
    if (!rule || rule->what != 'E') return 0;
    errno = rule->value;
    return 1;
}

static int lies(const struct rule *rule) { return rule && rule->what == 'L'; }

static int is_short(const struct rule *rule) { return rule && (rule->what == 's' || rule->what == 'k'); }

/* How many bytes it moves. */
static size_t at_most(const struct rule *rule, size_t size) {
    return is_short(rule) && size > (size_t)rule->value ? (size_t)rule->value : size;
}

/* What a call answered, where the process is not killed after it. */
static ssize_t moved(const struct rule *rule, ssize_t count) {
    if (rule && rule->what == 'k') end_by(SIGKILL);
    return count;
}

/* The first bytes of some parts, in one place. */
static size_t gathered(char *into, size_t most, const struct iovec *parts, size_t count) {
    size_t have = 0;
    for (size_t part = 0; part < count && have < most; part++) {
        size_t size = parts[part].iov_len < most - have ? parts[part].iov_len : most - have;
        memcpy(into + have, parts[part].iov_base, size);
        have += size;
    }
    return have;
}

static size_t size_of(const struct iovec *parts, size_t count) {
    size_t size = 0;
    for (size_t part = 0; part < count; part++) size += parts[part].iov_len;
    return size;
}

/* Memory. To look for the C library's own may take some, so these are called by the names that it has for itself. */

extern void *__libc_malloc(size_t), *__libc_calloc(size_t, size_t), *__libc_realloc(void *, size_t), *__libc_memalign(size_t, size_t);

static int is_refused(void *from, int call, size_t size) {
    if (!is_own(from)) return 0;
    const struct rule *any = meet(ALLOC, size), *named = meet(call, size);
    if (!any && !named) return 0;
    errno = ENOMEM;
    return 1;
}
#define REFUSED(call, size) is_refused(__builtin_return_address(0), call, size)

void *malloc(size_t size) { return REFUSED(MALLOC, size) ? 0 : __libc_malloc(size); }
void *calloc(size_t count, size_t size) { return REFUSED(CALLOC, count * size) ? 0 : __libc_calloc(count, size); }
void *realloc(void *old, size_t size) { return REFUSED(REALLOC, size) ? 0 : __libc_realloc(old, size); }
void *aligned_alloc(size_t align, size_t size) { return REFUSED(MEMALIGN, size) ? 0 : __libc_memalign(align, size); }
int posix_memalign(void **into, size_t align, size_t size) {
    if (REFUSED(MEMALIGN, size)) return ENOMEM;
    void *got = __libc_memalign(align, size);
    if (got) *into = got;
    return got ? 0 : ENOMEM;
}

/* Reads and writes. */

ssize_t read(int file, void *into, size_t size) {
    const struct rule *rule = MET_AT(READ, file, size);
    return fails(rule) ? -1 : moved(rule, REAL(read)(file, into, at_most(rule, size)));
}

ssize_t pread(int file, void *into, size_t size, off_t at) {
    const struct rule *rule = MET_AT(PREAD, file, size);
    return fails(rule) ? -1 : moved(rule, REAL(pread)(file, into, at_most(rule, size), at));
}

ssize_t pread64(int file, void *into, size_t size, off64_t at) {
    const struct rule *rule = MET_AT(PREAD, file, size);
    return fails(rule) ? -1 : moved(rule, REAL(pread64)(file, into, at_most(rule, size), at));
}

ssize_t recv(int socket, void *into, size_t size, int how) {
    const struct rule *rule = MET_AT(RECV, socket, size);
    return fails(rule) ? -1 : moved(rule, REAL(recv)(socket, into, at_most(rule, size), how));
}

ssize_t write(int file, const void *from, size_t size) {
    const struct rule *rule = MET_AT(WRITE, file, size);
    if (lies(rule)) return (ssize_t)size;
    return fails(rule) ? -1 : moved(rule, REAL(write)(file, from, at_most(rule, size)));
}

/* The name that the C library has for it itself. */
ssize_t __write(int file, const void *from, size_t size) {
    const struct rule *rule = MET_AT(WRITE, file, size);
    if (lies(rule)) return (ssize_t)size;
    return fails(rule) ? -1 : moved(rule, REAL(write)(file, from, at_most(rule, size)));
}

ssize_t pwrite(int file, const void *from, size_t size, off_t at) {
    const struct rule *rule = MET_AT(PWRITE, file, size);
    return fails(rule) ? -1 : moved(rule, REAL(pwrite)(file, from, at_most(rule, size), at));
}

ssize_t pwrite64(int file, const void *from, size_t size, off64_t at) {
    const struct rule *rule = MET_AT(PWRITE, file, size);
    return fails(rule) ? -1 : moved(rule, REAL(pwrite64)(file, from, at_most(rule, size), at));
}

ssize_t send(int socket, const void *from, size_t size, int how) {
    const struct rule *rule = MET_AT(SEND, socket, size);
    return fails(rule) ? -1 : moved(rule, REAL(send)(socket, from, at_most(rule, size), how));
}

ssize_t writev(int file, const struct iovec *parts, int count) {
    const struct rule *rule = MET_AT(WRITEV, file, size_of(parts, count));
    if (lies(rule)) return (ssize_t)size_of(parts, count);
    if (fails(rule)) return -1;
    if (!is_short(rule)) return REAL(writev)(file, parts, count);
    char all[rule->value + 1];
    size_t have = gathered(all, rule->value, parts, count);
    return moved(rule, have ? REAL(write)(file, all, have) : 0);
}

ssize_t sendmsg(int socket, const struct msghdr *message, int how) {
    const struct rule *rule = MET_AT(SENDMSG, socket, size_of(message->msg_iov, message->msg_iovlen));
    if (fails(rule)) return -1;
    if (!is_short(rule)) return REAL(sendmsg)(socket, message, how);
    char all[rule->value + 1];
    size_t have = gathered(all, rule->value, message->msg_iov, message->msg_iovlen);
    return moved(rule, have ? REAL(send)(socket, all, have, how) : 0);
}

/* Files and folders. */

int ftruncate(int file, off_t size) {
    const struct rule *rule = MET_AT(FTRUNCATE, file, size);
    return lies(rule) ? 0 : fails(rule) ? -1 : REAL(ftruncate)(file, size);
}

int ftruncate64(int file, off64_t size) {
    const struct rule *rule = MET_AT(FTRUNCATE, file, size);
    return lies(rule) ? 0 : fails(rule) ? -1 : REAL(ftruncate64)(file, size);
}

int fsync(int file) { return fails(MET_AT(FSYNC, file, 0)) ? -1 : REAL(fsync)(file); }
int fdatasync(int file) { return fails(MET_AT(FDATASYNC, file, 0)) ? -1 : REAL(fdatasync)(file); }
int fchmod(int file, mode_t mode) { return fails(MET_AT(FCHMOD, file, mode)) ? -1 : REAL(fchmod)(file, mode); }
int fchown(int file, uid_t user, gid_t group) { return fails(MET_AT(FCHOWN, file, user)) ? -1 : REAL(fchown)(file, user, group); }
int flock(int file, int how) { return fails(MET_AT(FLOCK, file, how)) ? -1 : REAL(flock)(file, how); }
ssize_t getdents64(int file, void *into, size_t size) { return fails(MET_AT(GETDENTS, file, size)) ? -1 : REAL(getdents64)(file, into, size); }

int unlink(const char *path) {
    const struct rule *rule = MET(UNLINK, 0);
    return lies(rule) ? 0 : fails(rule) ? -1 : REAL(unlink)(path);
}

int link(const char *from, const char *to) {
    const struct rule *rule = MET(LINK, 0);
    return lies(rule) ? 0 : fails(rule) ? -1 : (int)moved(rule, REAL(link)(from, to));
}

int rename(const char *from, const char *to) {
    const struct rule *rule = MET(RENAME, 0);
    return lies(rule) ? 0 : fails(rule) ? -1 : (int)moved(rule, REAL(rename)(from, to));
}

int statx(int at, const char *restrict path, int how, unsigned wanted, struct statx *restrict into) {
    return fails(MET(STATX, 0)) ? -1 : REAL(statx)(at, path, how, wanted, into);
}

/* The mode stands there only where a file may be made, and is passed on in any case. */
#define MODE_OF(how) ({ va_list more; va_start(more, how); mode_t mode = va_arg(more, mode_t); va_end(more); mode; })
int open(const char *path, int how, ...) { mode_t mode = MODE_OF(how); return fails(MET(OPEN, 0)) ? -1 : REAL(open)(path, how, mode); }
int open64(const char *path, int how, ...) { mode_t mode = MODE_OF(how); return fails(MET(OPEN, 0)) ? -1 : REAL(open64)(path, how, mode); }
int openat(int at, const char *path, int how, ...) {
    mode_t mode = MODE_OF(how);
    return fails(MET(OPENAT, 0)) ? -1 : REAL(openat)(at, path, how, mode);
}

/* Connections, threads, pages and clocks. */

int accept4(int socket, struct sockaddr *restrict from, socklen_t *restrict size, int how) {
    return fails(MET(ACCEPT, 0)) ? -1 : REAL(accept4)(socket, from, size, how);
}
int bind(int socket, const struct sockaddr *at, socklen_t size) { return fails(MET(BIND, 0)) ? -1 : REAL(bind)(socket, at, size); }
int listen(int socket, int most) { return fails(MET(LISTEN, 0)) ? -1 : REAL(listen)(socket, most); }
int socket(int domain, int kind, int protocol) { return fails(MET(SOCKET, 0)) ? -1 : REAL(socket)(domain, kind, protocol); }
int connect(int socket, const struct sockaddr *to, socklen_t size) { return fails(MET(CONNECT, 0)) ? -1 : REAL(connect)(socket, to, size); }
/* The size in the log is the option's value, where that is a number. */
int setsockopt(int socket, int level, int option, const void *value, socklen_t size) {
    int number = size == sizeof number ? *(const int *)value : 0;
    return fails(MET(SETSOCKOPT, number)) ? -1 : REAL(setsockopt)(socket, level, option, value, size);
}

int pthread_create(pthread_t *restrict thread, const pthread_attr_t *restrict how, void *(*run)(void *), void *restrict with) {
    return fails(MET(THREAD, 0)) ? errno : REAL(pthread_create)(thread, how, run, with);
}

void *mmap(void *at, size_t size, int may, int how, int file, off_t from) {
    return fails(MET(MMAP, size)) ? MAP_FAILED : (void *)syscall(SYS_mmap, at, size, may, how, file, from);
}

/* A program with checks of its memory asks for the time in the midst of an allocation, where nothing of the C library can be looked for. */
int clock_gettime(clockid_t clock, struct timespec *into) {
    const struct rule *rule = clock == CLOCK_REALTIME ? MET(CLOCK, 0) : 0;
    if (fails(rule)) return -1;
    int status = (int)syscall(SYS_clock_gettime, clock, into);
    if (rule && rule->what == 't') into->tv_sec = rule->value;
    return status;
}
