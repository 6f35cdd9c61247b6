/*
 * A layer between a daemon and the C library, for demo/daemon_test (LD_PRELOAD): notes the calls that save and the replies, in their order, in the
 * file TRACE_LOG, a line each:
 *
 *     sync INODE DIGEST PATH      fsync or fdatasync of a file; the digest is of the bytes in the file
 *     syncdir PATH                fsync or fdatasync of a directory
 *     rename INODE DIGEST PATH    a file was renamed to this path
 *     link INODE DIGEST PATH      a file got this path as a second one
 *     send INODE DIGEST           bytes are about to be sent on a socket; inode and digest are those of the file TRACE_STORE
 *     failed PATH                 fsync or fdatasync was made to fail
 *
 * Where TRACE_KILL is a number above 0, the process kills itself at the moment of that number. The moments are before and after each of the calls
 * above and each write to a file, and in a send also when half of the bytes have been moved. Where TRACE_KILL_WRITE is a number above 0, it kills
 * itself within the write to a file that has this number, when TRACE_CUT thousandths of the bytes have been moved. Where TRACE_SEND is a number
 * above 0, one call sends at most so many bytes, as the system may do too. Where TRACE_FAIL is a number above 0, the call of fsync or fdatasync
 * that has this number fails with EIO and does nothing; those after it do not fail, as it is with the system.
 */
#define _GNU_SOURCE
#include <dlfcn.h>
#include <errno.h>
#include <fcntl.h>
#include <signal.h>
#include <stdbool.h>
#include <stdint.h>
#include <stdio.h>
#include <stdlib.h>
#include <string.h>
#include <sys/socket.h>
#include <sys/stat.h>
#include <sys/syscall.h>
#include <sys/uio.h>
#include <unistd.h>

#define NEXT(type, name) ((type)dlsym(RTLD_NEXT, name))

static long setting(const char *variable) {
    const char *text = getenv(variable);
    return text == NULL ? 0 : atol(text);
}

static bool is_moment(void) {
    static long moments;
    return __sync_add_and_fetch(&moments, 1) == setting("TRACE_KILL");
}

static void moment(void) {
    if (is_moment())
        raise(SIGKILL);
}

/* The inode of an open file and a digest of its bytes (FNV-1a), as text. */
static void describe(int fd, char text[64]) {
    static const uint64_t start = 14695981039346656037u, prime = 1099511628211u;
    struct stat status;
    uint64_t digest = start;
    uint8_t bytes[4096];
    ssize_t n;
    for (off_t at = 0; (n = pread(fd, bytes, sizeof bytes, at)) > 0; at += n)
        for (ssize_t i = 0; i < n; i++)
            digest = (digest ^ bytes[i]) * prime;
    unsigned long inode = fstat(fd, &status) == 0 ? (unsigned long)status.st_ino : 0;
    snprintf(text, 64, "%lu %016lx", inode, (unsigned long)digest);
}

static void describe_path(int directory, const char *path, char text[64]) {
    int fd = openat(directory, path, O_RDONLY | O_CLOEXEC);
    snprintf(text, 64, "0 0");
    if (fd >= 0) {
        describe(fd, text);
        close(fd);
    }
}

static void note(const char *what, const char *file, const char *path) {
    const char *log = getenv("TRACE_LOG");
    char line[8192];
    int len = snprintf(line, sizeof line, "%s %s %s\n", what, file, path);
    int fd = log == NULL ? -1 : open(log, O_WRONLY | O_APPEND | O_CREAT | O_CLOEXEC, 0600);
    if (fd >= 0) {
        syscall(SYS_write, fd, line, (size_t)len);
        close(fd);
    }
}

static mode_t kind(int fd) {
    struct stat status;
    return fstat(fd, &status) == 0 ? status.st_mode & S_IFMT : 0;
}

static void path_of(int fd, char path[4096]) {
    char link[64];
    snprintf(link, sizeof link, "/proc/self/fd/%d", fd);
    ssize_t n = readlink(link, path, 4095);
    path[n < 0 ? 0 : n] = 0;
}

/* ---- Bringing to stable storage ---- */

static int sync_with(int (*real)(int), int fd) {
    static long syncs;
    moment();
    char before[64] = "", path[4096];
    path_of(fd, path);
    if (__sync_add_and_fetch(&syncs, 1) == setting("TRACE_FAIL")) {
        note("failed", "", path);
        errno = EIO;
        return -1;
    }
    if (kind(fd) != S_IFDIR) {
        int again = open(path, O_RDONLY | O_CLOEXEC); /* the daemon's own descriptor may not be for reading */
        describe(again, before);
        close(again);
    }
    int result = real(fd);
    if (result == 0)
        note(kind(fd) == S_IFDIR ? "syncdir" : "sync", before, path);
    moment();
    return result;
}

int fsync(int fd) {
    return sync_with(NEXT(int (*)(int), "fsync"), fd);
}

int fdatasync(int fd) {
    return sync_with(NEXT(int (*)(int), "fdatasync"), fd);
}

/* ---- Renaming and linking ---- */

static void named(const char *what, int directory, const char *path) {
    char file[64], whole[4096];
    int fd = openat(directory, path, O_RDONLY | O_CLOEXEC);
    if (fd >= 0) {
        describe(fd, file);
        path_of(fd, whole);
        close(fd);
        note(what, file, whole);
    }
}

int renameat2(int from, const char *old, int to, const char *path, unsigned flags) {
    moment();
    int result = NEXT(int (*)(int, const char *, int, const char *, unsigned), "renameat2")(from, old, to, path, flags);
    if (result == 0)
        named("rename", to, path);
    moment();
    return result;
}

int renameat(int from, const char *old, int to, const char *path) {
    return renameat2(from, old, to, path, 0);
}

int rename(const char *old, const char *path) {
    return renameat2(AT_FDCWD, old, AT_FDCWD, path, 0);
}

int linkat(int from, const char *old, int to, const char *path, int flags) {
    moment();
    int result = NEXT(int (*)(int, const char *, int, const char *, int), "linkat")(from, old, to, path, flags);
    if (result == 0)
        named("link", to, path);
    moment();
    return result;
}

int link(const char *old, const char *path) {
    return linkat(AT_FDCWD, old, AT_FDCWD, path, 0);
}

/* ---- Writing and sending ---- */

/* All calls that write or send, as one: on a socket with flags, at a place of a file, or else where the file's own place is. */
static ssize_t move(int fd, const struct iovec *parts, int count, off_t at, const struct msghdr *message, int flags) {
    if (message != NULL) {
        struct msghdr part = *message;
        part.msg_iov = (struct iovec *)(uintptr_t)parts;
        part.msg_iovlen = (size_t)count;
        return NEXT(ssize_t (*)(int, const struct msghdr *, int), "sendmsg")(fd, &part, flags);
    }
    if (at >= 0)
        return NEXT(ssize_t (*)(int, const struct iovec *, int, off_t), "pwritev")(fd, parts, count, at);
    return NEXT(ssize_t (*)(int, const struct iovec *, int), "writev")(fd, parts, count);
}

/* Moves a part of the first bytes, in thousandths, and kills the process. */
static void move_part_and_die(int fd, const struct iovec *parts, off_t at, const struct msghdr *message, int flags, size_t thousandths) {
    struct iovec part = { .iov_base = parts[0].iov_base, .iov_len = parts[0].iov_len * thousandths / 1000 };
    move(fd, &part, 1, at, message, flags);
    raise(SIGKILL);
}

static ssize_t put(int fd, const struct iovec *parts, int count, off_t at, const struct msghdr *message, int flags) {
    static long writes;
    mode_t to = kind(fd);
    struct iovec first = count > 0 ? parts[0] : (struct iovec){ .iov_len = 0 };
    if (to == S_IFSOCK && first.iov_len > 0) {
        char file[64];
        describe_path(AT_FDCWD, getenv("TRACE_STORE"), file);
        note("send", file, "");
        moment();
        if (is_moment())
            move_part_and_die(fd, parts, at, message, flags, 500);
        size_t most = (size_t)setting("TRACE_SEND");
        if (most > 0 && first.iov_len > most) {
            first.iov_len = most;
            parts = &first;
            count = 1;
        }
    } else if (to == S_IFREG && first.iov_len > 0) {
        moment();
        if (__sync_add_and_fetch(&writes, 1) == setting("TRACE_KILL_WRITE"))
            move_part_and_die(fd, parts, at, message, flags, (size_t)setting("TRACE_CUT"));
    } else {
        return move(fd, parts, count, at, message, flags);
    }
    ssize_t result = move(fd, parts, count, at, message, flags);
    moment();
    return result;
}

#define ONE(bytes, len) (&(struct iovec){ .iov_base = (void *)(uintptr_t)(bytes), .iov_len = (len) })

ssize_t write(int fd, const void *bytes, size_t len) {
    return put(fd, ONE(bytes, len), 1, -1, NULL, 0);
}

ssize_t writev(int fd, const struct iovec *parts, int count) {
    return put(fd, parts, count, -1, NULL, 0);
}

ssize_t pwrite(int fd, const void *bytes, size_t len, off_t at) {
    return put(fd, ONE(bytes, len), 1, at, NULL, 0);
}

ssize_t pwritev(int fd, const struct iovec *parts, int count, off_t at) {
    return put(fd, parts, count, at, NULL, 0);
}

ssize_t sendmsg(int fd, const struct msghdr *message, int flags) {
    return put(fd, message->msg_iov, (int)message->msg_iovlen, -1, message, flags);
}

ssize_t sendto(int fd, const void *bytes, size_t len, int flags, const struct sockaddr *to, socklen_t to_len) {
    struct msghdr message = { .msg_name = (void *)(uintptr_t)to, .msg_namelen = to_len };
    return put(fd, ONE(bytes, len), 1, -1, &message, flags);
}

ssize_t send(int fd, const void *bytes, size_t len, int flags) {
    return sendto(fd, bytes, len, flags, NULL, 0);
}
