/*
 * A reference daemon: serves a store over NFS version 3 and MOUNT version 3, over TCP on one port of 127.0.0.1. It shows one right way to do
 * the caller's part; "duty N" below is the number in include/nfs3.h, "MOUNT duty N" that in include/mount3.h. Like every daemon it is no part
 * of the verified libraries. demo/daemon_test tests it.
 *
 *     daemon --format OBJECTS NAMES BLOCKS STORE_FILE    makes a new, empty store; what was in the file is lost
 *     daemon --stamp STORE_FILE                          gives a copy that was brought back a new stamp; its files stay
 *     daemon STORE_FILE PORT                             serves it; with port 0 on any free port. Prints "port N" when hosts can connect
 *
 * A Linux host mounts a directory of the store by its path, with N for the port, by
 *     mount -t nfs -o vers=3,proto=tcp,port=N,mountproto=tcp,mountport=N,nolock 127.0.0.1:/PATH FOLDER
 *
 * The mount table is kept in memory: it is empty after a restart. Where it is full of hosts that are gone, SIGUSR1 makes it empty, and nothing
 * else is lost: kill -USR1 PROCESS.
 *
 * A store of the old layout is converted when it is read, by --stamp too; the old file stays as STORE_FILE.old.
 *
 * Messages that are refused, and calls whose arguments cannot be read, are reported on standard error, in at most one line a second. The lines:
 *     daemon: LENGTH bytes from ADDRESS: answer NUMBER, offset OFFSET                         too long, or too short to be a call
 *     daemon: LENGTH bytes from ADDRESS: answer NUMBER, offset OFFSET, FIELD                  a header broke in this field
 *     daemon: LENGTH bytes from ADDRESS: GARBAGE_ARGS, program PROGRAM, procedure PROCEDURE, offset OFFSET
 *
 * There is one thread and no allocation. A connection has room for one call and one reply, and the next call is read when the reply is sent.
 * Beside STORE_FILE stand STORE_FILE.lock and, within a save, STORE_FILE.new.
 */
#define _DEFAULT_SOURCE
#include "mount3.h"
#include "nfs3.h"

#include <arpa/inet.h>
#include <errno.h>
#include <fcntl.h>
#include <limits.h>
#include <netinet/in.h>
#include <netinet/tcp.h>
#include <poll.h>
#include <signal.h>
#include <stdbool.h>
#include <stdio.h>
#include <stdlib.h>
#include <string.h>
#include <sys/file.h>
#include <sys/random.h>
#include <sys/socket.h>
#include <time.h>
#include <unistd.h>

/* Duty 8: whether a line on standard error would be taken at once. Nothing waits for a reader that is behind. */
static bool can_report(void) {
    struct pollfd error = { .fd = STDERR_FILENO, .events = POLLOUT };
    return poll(&error, 1, 0) == 1 && (error.revents & POLLOUT) != 0;
}

/* Prints why and ends the process. Nothing is lost by it: what is not saved was not answered either, and hosts send it again. */
static void stop(const char *what, const char *why) {
    if (can_report())
        fprintf(stderr, "daemon: %s: %s\n", what, why);
    exit(1);
}

/* The same, where a call to the system failed. */
static void failed(const char *what) {
    stop(what, strerror(errno));
}

/* The same, where the library refused something for no fault of a host. */
static void stop_at(const char *what, uint32_t number) {
    char why[32];
    snprintf(why, sizeof why, "answer %u", (unsigned)number);
    stop(what, why);
}

/* ---- Numbers and times ---- */

static uint32_t get_word(const uint8_t *at) {
    return (uint32_t)at[0] << 24 | (uint32_t)at[1] << 16 | (uint32_t)at[2] << 8 | at[3];
}

/* Writes a word, most significant byte first, and gives the place after it. */
static uint8_t *put_word(uint8_t *at, uint32_t word) {
    for (int i = 0; i < 4; i++)
        at[i] = (uint8_t)(word >> (24 - 8 * i));
    return at + 4;
}

static void put_random(void *bytes, size_t len) {
    if (getrandom(bytes, len, 0) != (ssize_t)len)
        failed("random bytes");
}

/* Duty 6: the time, in each call later than in the one before, also when the system's clock stands still or is set back. */
static struct timespec next_time(void) {
    static struct timespec last;
    struct timespec now;
    if (clock_gettime(CLOCK_REALTIME, &now) != 0)
        failed("clock");
    if (now.tv_sec < 0 || now.tv_sec >= UINT32_MAX)
        stop("clock", "before 1970 or after 2106");
    if (now.tv_sec < last.tv_sec || (now.tv_sec == last.tv_sec && now.tv_nsec <= last.tv_nsec)) {
        now = last;
        if (++now.tv_nsec == NFS3_NANOSECONDS) {
            now.tv_nsec = 0;
            now.tv_sec++;
        }
    }
    last = now;
    return now;
}

/* ---- The store and its file ---- */

static uint8_t store[NFS3_STORE_MOST], saved[NFS3_STORE_MOST]; /* the store, and its bytes as they are in the file */
static size_t store_len;
static uint64_t verifier;

static int directory; /* the folder of the file */
static char name[NAME_MAX + 1], new_name[NAME_MAX + 1], old_name[NAME_MAX + 1];

/* Finds the folder of the store's file, and makes sure that no other process has the store (duty 3). The lock ends with the process. */
static void open_place(const char *path) {
    const char *slash = strrchr(path, '/');
    const char *last = slash == NULL ? path : slash + 1;
    char folder[PATH_MAX], lock[NAME_MAX + 1];
    int len = slash == NULL ? snprintf(folder, sizeof folder, ".") : snprintf(folder, sizeof folder, "%.*s", (int)(last - path), path);
    if (len >= (int)sizeof folder || *last == 0 || snprintf(name, sizeof name, "%s", last) >= (int)sizeof name ||
        snprintf(new_name, sizeof new_name, "%s.new", last) >= (int)sizeof new_name ||
        snprintf(old_name, sizeof old_name, "%s.old", last) >= (int)sizeof old_name ||
        snprintf(lock, sizeof lock, "%s.lock", last) >= (int)sizeof lock)
        stop(path, "too long, or names no file");
    directory = open(folder, O_RDONLY | O_DIRECTORY | O_CLOEXEC);
    if (directory < 0)
        failed(folder);
    int fd = openat(directory, lock, O_RDWR | O_CREAT | O_CLOEXEC, 0600);
    if (fd < 0 || flock(fd, LOCK_EX | LOCK_NB) != 0)
        failed(lock);
}

/*
 * Reads at most so many bytes of a file in the store's folder and gives their number, or -1 where there is no file. Brings them to stable storage.
 * A link is refused: it is a second name, with another lock.
 */
static ssize_t read_file(const char *file, uint8_t *bytes, size_t most) {
    int fd = openat(directory, file, O_RDONLY | O_NOFOLLOW | O_CLOEXEC);
    if (fd < 0 && errno == ENOENT)
        return -1;
    if (fd < 0)
        failed(file);
    size_t len = 0;
    ssize_t n = 1;
    while (len < most && n > 0) {
        n = read(fd, bytes + len, most - len);
        if (n < 0)
            failed(file);
        len += (size_t)n;
    }
    if (fsync(fd) != 0 || fsync(directory) != 0)
        failed(file);
    close(fd);
    return (ssize_t)len;
}

/* Duty 7: replaces the file by the store's bytes, all or nothing. They are on stable storage when it returns. No step is tried again. */
static void save(void) {
    int fd = openat(directory, new_name, O_WRONLY | O_CREAT | O_TRUNC | O_CLOEXEC, 0600);
    if (fd < 0)
        failed(new_name);
    for (size_t done = 0; done < store_len;) {
        ssize_t n = write(fd, store + done, store_len - done);
        if (n < 0)
            failed(new_name);
        done += (size_t)n;
    }
    if (fsync(fd) != 0 || close(fd) != 0)
        failed(new_name);
    if (renameat(directory, new_name, directory, name) != 0)
        failed(new_name);
    if (fsync(directory) != 0)
        failed("folder");
    memcpy(saved, store, store_len);
}

/* Duty 3: makes the store of the bytes of one in the old layout. False where they are none. */
static bool convert(const uint8_t *old, size_t old_len) {
    if (old_len < NFS3_FIXED_LENGTH)
        return false;
    store_len = NFS3_CONVERTED_LENGTH(old_len, get_word(old + NFS3_OBJECT_COUNT_OFFSET));
    return store_len <= sizeof store && nfs3_convert(old, old_len, store, store_len).number == NFS3_DONE;
}

/* Duty 3: keeps the file of the old layout under a second name, on stable storage. A process that was stopped here may have done so before. */
static void keep_old_file(const uint8_t *old, size_t old_len) {
    static uint8_t other[NFS3_OLD_STORE_MOST + 1];
    if (linkat(directory, name, directory, old_name, 0) != 0) {
        if (errno != EEXIST)
            failed(old_name);
        if (read_file(old_name, other, sizeof other) != (ssize_t)old_len || memcmp(other, old, old_len) != 0)
            stop(old_name, "another file than the store to be converted has this name; move it away");
    }
    if (fsync(directory) != 0)
        failed(old_name);
}

/* Duty 3. A store of the old layout is converted; one that fails its check is left as it is. */
static void load(void) {
    static uint8_t bytes[NFS3_STORE_MOST + 1];
    ssize_t len = read_file(name, bytes, sizeof bytes);
    if (len < 0)
        stop(name, "no such file");
    if (nfs3_check(bytes, (size_t)len).number == NFS3_DONE) {
        store_len = (size_t)len;
        memcpy(store, bytes, store_len);
        memcpy(saved, bytes, store_len);
    } else if (convert(bytes, (size_t)len)) {
        keep_old_file(bytes, (size_t)len);
        save();
        if (can_report())
            fprintf(stderr, "daemon: %s: converted from the old layout; the old file is %s\n", name, old_name);
    } else {
        stop(name, "no store that passes its check");
    }
    put_random(&verifier, sizeof verifier); /* in a million starts two are the same with a chance below 1 in 30 million */
}

/* A stamp other than the one in the file, whatever the file is. The chance that it is one of n stamps before that is n in 4,294,967,296. */
static uint32_t new_stamp(void) {
    uint8_t old[NFS3_STAMP_OFFSET + NFS3_STAMP_LENGTH];
    bool is_old = read_file(name, old, sizeof old) == (ssize_t)sizeof old;
    uint32_t stamp;
    do
        put_random(&stamp, sizeof stamp);
    while (is_old && stamp == get_word(old + NFS3_STAMP_OFFSET));
    return stamp;
}

/* Duty 1. */
static void format(uint32_t objects, uint32_t names, uint32_t blocks) {
    struct timespec now = next_time();
    store_len = NFS3_STORE_LENGTH(objects, names, blocks);
    struct nfs3_answer a = nfs3_format(store, store_len, new_stamp(), objects, names, blocks, (uint32_t)now.tv_sec, (uint32_t)now.tv_nsec);
    if (a.number != NFS3_DONE)
        stop_at("format", a.number);
    save();
}

/* Duty 2. */
static void restamp(void) {
    load();
    put_word(store + NFS3_STAMP_OFFSET, new_stamp());
    save();
}

/* ---- The mount table (MOUNT duty 1) ---- */

static uint8_t table[MOUNT3_TABLE_LENGTH]; /* empty at the start */
static volatile sig_atomic_t is_to_be_empty; /* an operator said so, by SIGUSR1 */

/* The table is emptied before the next call of MOUNT, and not here, since this may run within one. */
static void on_signal(int signal) {
    (void)signal;
    is_to_be_empty = 1;
}

/* MOUNT duty 3: whether a message is for mount3_call. */
static bool is_mount(const uint8_t *call, size_t len) {
    return len >= 16 && get_word(call + 12) == MOUNT3_PROGRAM;
}

/* Answers a call of MOUNT from the host with this address, in network order as the system gives it. */
static struct nfs3_answer call_mount(const uint8_t *call, size_t call_len, uint8_t *reply, size_t reply_len, uint32_t address) {
    if (is_to_be_empty) {
        is_to_be_empty = 0;
        memset(table, 0, sizeof table);
    }
    return mount3_call(call, call_len, store, store_len, table, sizeof table, reply, reply_len, ntohl(address)); /* MOUNT duty 2 */
}

/* ---- Replies that are kept (duty 5); none of MOUNT (MOUNT duty 4) ---- */

enum { RPC_CALL = 0, RPC_VERSION = 2, SETATTR = 2, WRITE = 7, CREATE = 8, MKDIR = 9, REMOVE = 12, RMDIR = 13, RENAME = 14, LINK = 15 };

/* So many, and for so long. */
enum { KEPT = 256, KEPT_SECONDS = 180 };

struct kept {
    uint32_t address;
    time_t until;
    size_t call_len, reply_len; /* the call's first 4 bytes are its xid */
    uint8_t call[NFS3_CALL_MOST], reply[NFS3_REPLY_SPACE];
};

static struct kept kept[KEPT];
static size_t oldest_kept;

static time_t seconds_running(void) {
    struct timespec now;
    if (clock_gettime(CLOCK_MONOTONIC, &now) != 0)
        failed("clock");
    return now.tv_sec;
}

/* Whether the reply to a call is kept, whatever it says: the procedure is one that may change the store. */
static bool is_to_keep(const uint8_t *call, size_t len) {
    if (len < 24 || get_word(call + 4) != RPC_CALL || get_word(call + 8) != RPC_VERSION || get_word(call + 12) != NFS3_PROGRAM ||
        get_word(call + 16) != NFS3_VERSION)
        return false;
    uint32_t procedure = get_word(call + 20);
    return procedure == SETATTR || procedure == WRITE || procedure == CREATE || procedure == MKDIR || procedure == REMOVE ||
           procedure == RMDIR || procedure == RENAME || procedure == LINK;
}

/* The place after opaque data of at most so many bytes whose length word is at a place in the call; 0 where it is cut or too long. */
static size_t after_opaque(const uint8_t *call, size_t len, size_t at, size_t most) {
    if (at == 0 || at + 4 > len || get_word(call + at) > most)
        return 0;
    size_t end = at + 4 + ((size_t)get_word(call + at) + 3) / 4 * 4;
    return end <= len ? end : 0;
}

/* The same, and the padding of the data is set to zero. */
static size_t clear_opaque(uint8_t *call, size_t len, size_t at, size_t most) {
    size_t end = after_opaque(call, len, at, most);
    if (end != 0) {
        size_t padding = at + 4 + get_word(call + at);
        memset(call + padding, 0, end - padding);
    }
    return end;
}

/* Sets the padding of a call whose reply is kept to zero, field by field, as far as they can be read. */
static void clear_padding(uint8_t *call, size_t len) {
    uint32_t procedure = get_word(call + 20);
    size_t at = clear_opaque(call, len, 28, NFS3_CREDENTIAL_MOST);
    at = clear_opaque(call, len, at == 0 ? 0 : at + 4, NFS3_CREDENTIAL_MOST); /* behind the flavor */
    at = clear_opaque(call, len, at, NFS3_HANDLE_MOST);
    if (procedure == SETATTR)
        return;
    if (procedure == WRITE) /* behind offset, count and stable */
        at = at == 0 ? 0 : at + 16;
    if (procedure == LINK) /* the directory's handle, behind the file's */
        at = clear_opaque(call, len, at, NFS3_HANDLE_MOST);
    at = clear_opaque(call, len, at, UINT32_MAX);
    if (procedure == RENAME) {
        at = clear_opaque(call, len, at, NFS3_HANDLE_MOST);
        clear_opaque(call, len, at, UINT32_MAX);
    }
}

static const struct kept *find_kept(uint32_t address, const uint8_t *call, size_t call_len) {
    time_t now = seconds_running();
    for (size_t i = 0; i < KEPT; i++) {
        const struct kept *k = &kept[i];
        if (k->until > now && k->address == address && k->call_len == call_len && memcmp(k->call, call, call_len) == 0)
            return k;
    }
    return NULL;
}

static void keep(uint32_t address, const uint8_t *call, size_t call_len, const uint8_t *reply, size_t reply_len) {
    struct kept *k = &kept[oldest_kept];
    oldest_kept = (oldest_kept + 1) % KEPT;
    k->address = address;
    k->until = seconds_running() + KEPT_SECONDS;
    k->call_len = call_len;
    k->reply_len = reply_len;
    memcpy(k->call, call, call_len);
    memcpy(k->reply, reply, reply_len);
}

/* ---- Connections ---- */

/* The last is room for a reply of either program. */
enum { CONNECTIONS = 32, MARK = 4, REPLY_SPACE = MOUNT3_REPLY_SPACE > NFS3_REPLY_SPACE ? MOUNT3_REPLY_SPACE : NFS3_REPLY_SPACE };
#define LAST_FRAGMENT 0x80000000u

struct connection {
    int fd; /* -1: none */
    uint32_t address;
    uint64_t heard; /* when it last sent something, by `turn` */
    uint8_t mark[MARK];
    size_t mark_len;        /* of the fragment at hand, as far as it has come */
    uint32_t fragment_left; /* bytes of it that are still to come */
    uint8_t call[NFS3_CALL_MOST];
    size_t call_len;
    uint8_t reply[MARK + REPLY_SPACE];
    size_t reply_len, reply_sent;
};

static struct connection connections[CONNECTIONS];
static uint64_t turn;

static void end_connection(struct connection *c) {
    close(c->fd);
    c->fd = -1;
}

/* Whether a message is refused for a fault of its host. */
static bool is_refused(uint32_t number) {
    return number == NFS3_LONG_CALL || number == NFS3_SHORT_MESSAGE || number == NFS3_OTHER_MESSAGE || number == NFS3_CUT_HEADER ||
           number == NFS3_LONG_CREDENTIAL;
}

/* The name of the field in which the header of a call broke; offset 0 is an answer about the message type. */
static const char *field_name(const uint8_t *call, uint32_t offset) {
    enum { FIRST = 8, CREDENTIAL = 28 };
    static const char *const names[] = { "RPC version", "program", "version", "procedure", "flavor of the credential", "credential" };
    if (offset == 0)
        return "message type";
    if (offset <= CREDENTIAL)
        return names[(offset - FIRST) / 4];
    uint32_t credential_end = CREDENTIAL + 4 + (get_word(call + CREDENTIAL) + 3) / 4 * 4;
    return offset == credential_end ? "flavor of the verifier" : "verifier";
}

/* Duty 8: reports a message of so many bytes that was refused, or answered GARBAGE_ARGS, and where it broke. At most one line a second. */
static void report(const struct connection *c, struct nfs3_answer a, size_t len) {
    static time_t last = -1;
    time_t now = seconds_running();
    if (now == last || !can_report())
        return;
    last = now;
    char address[INET_ADDRSTRLEN] = "?", what[80];
    struct in_addr in = { .s_addr = c->address };
    inet_ntop(AF_INET, &in, address, sizeof address);
    if (a.number == NFS3_DONE)
        snprintf(what, sizeof what, "GARBAGE_ARGS, program %u, procedure %u, offset %u", (unsigned)get_word(c->call + 12),
                 (unsigned)get_word(c->call + 20), (unsigned)a.offset);
    else if (a.number == NFS3_LONG_CALL || a.number == NFS3_SHORT_MESSAGE)
        snprintf(what, sizeof what, "answer %u, offset %u", (unsigned)a.number, (unsigned)a.offset);
    else
        snprintf(what, sizeof what, "answer %u, offset %u, %s", (unsigned)a.number, (unsigned)a.offset, field_name(c->call, a.offset));
    fprintf(stderr, "daemon: %zu bytes from %s: %s\n", len, address, what);
}

/* Duty 8: sends what can be sent of the reply. False where the connection is to be closed. */
static bool send_reply(struct connection *c) {
    ssize_t n = send(c->fd, c->reply + c->reply_sent, c->reply_len - c->reply_sent, MSG_DONTWAIT);
    if (n < 0)
        return errno == EAGAIN || errno == EINTR;
    c->reply_sent += (size_t)n;
    return true;
}

/* Answers the call that has come: from the kept replies, or by the library of its program. False where the connection is to be closed. */
static bool answer(struct connection *c) {
    uint8_t *reply = c->reply + MARK;
    size_t len;
    static uint8_t cleared[NFS3_CALL_MOST]; /* the call with its padding set to zero, to be compared; the library gets it as it came */
    const struct kept *k = NULL;
    bool keeps = is_to_keep(c->call, c->call_len);
    if (keeps) {
        memcpy(cleared, c->call, c->call_len);
        clear_padding(cleared, c->call_len);
        k = find_kept(c->address, cleared, c->call_len);
    }
    if (k != NULL) {
        len = k->reply_len;
        memcpy(reply, k->reply, len);
    } else {
        struct nfs3_answer a;
        if (is_mount(c->call, c->call_len)) {
            a = call_mount(c->call, c->call_len, reply, REPLY_SPACE, c->address);
        } else {
            struct timespec now = next_time();
            a = nfs3_call(c->call, c->call_len, store, store_len, reply, REPLY_SPACE, (uint32_t)now.tv_sec, (uint32_t)now.tv_nsec, verifier);
        }
        if (is_refused(a.number)) {
            report(c, a, c->call_len);
            return false;
        }
        if (a.number != NFS3_DONE) /* NFS3_BAD_STORE and MOUNT3_BAD_TABLE too: something else wrote into memory */
            stop_at("a call", a.number);
        if (a.offset != 0) /* the reply says GARBAGE_ARGS */
            report(c, a, c->call_len);
        len = a.length;
        bool changed = memcmp(store, saved, store_len) != 0; /* never by MOUNT (MOUNT duty 5) */
        if (changed)
            save();
        if (keeps)
            keep(c->address, cleared, c->call_len, reply, len);
    }
    put_word(c->reply, LAST_FRAGMENT | (uint32_t)len);
    c->reply_len = MARK + len;
    c->reply_sent = 0;
    return send_reply(c);
}

/* Duty 4: takes one piece of what the host sent, and answers where a record is complete. False where the connection is to be closed. */
static bool receive(struct connection *c) {
    bool in_mark = c->mark_len < MARK;
    ssize_t n = in_mark ? recv(c->fd, c->mark + c->mark_len, MARK - c->mark_len, MSG_DONTWAIT)
                        : recv(c->fd, c->call + c->call_len, c->fragment_left, MSG_DONTWAIT);
    if (n < 0)
        return errno == EAGAIN || errno == EINTR;
    if (n == 0)
        return false;
    c->heard = ++turn;
    if (in_mark) {
        c->mark_len += (size_t)n;
        if (c->mark_len < MARK)
            return true;
        c->fragment_left = get_word(c->mark) & ~LAST_FRAGMENT;
        if (c->fragment_left > NFS3_CALL_MOST - c->call_len) {
            report(c, (struct nfs3_answer){ .number = NFS3_LONG_CALL }, c->call_len + c->fragment_left);
            return false;
        }
    } else {
        c->call_len += (size_t)n;
        c->fragment_left -= (uint32_t)n;
    }
    if (c->fragment_left > 0)
        return true;
    c->mark_len = 0;
    if ((get_word(c->mark) & LAST_FRAGMENT) == 0)
        return true;
    bool open = answer(c);
    c->call_len = 0;
    return open;
}

/* Takes a new connection in; where all places are taken, in place of the one that has been silent longest. */
static void accept_connection(int listener) {
    struct sockaddr_in peer;
    socklen_t peer_len = sizeof peer;
    int fd = accept(listener, (struct sockaddr *)&peer, &peer_len);
    if (fd < 0)
        return;
    int on = 1;
    setsockopt(fd, IPPROTO_TCP, TCP_NODELAY, &on, sizeof on); /* a reply does not wait for others */
    struct connection *c = &connections[0];
    for (size_t i = 0; i < CONNECTIONS && c->fd >= 0; i++)
        if (connections[i].fd < 0 || connections[i].heard < c->heard)
            c = &connections[i];
    if (c->fd >= 0)
        end_connection(c);
    c->fd = fd;
    c->address = peer.sin_addr.s_addr;
    c->heard = ++turn;
    c->mark_len = c->call_len = c->reply_len = c->reply_sent = 0;
}

static bool is_sending(const struct connection *c) {
    return c->reply_sent < c->reply_len;
}

/* Duty 4: makes sure that a save finds a descriptor beside the listening socket and all connections. */
static void check_descriptors(void) {
    int taken[CONNECTIONS + 2];
    for (size_t i = 0; i < CONNECTIONS + 2; i++) {
        taken[i] = dup(directory);
        if (taken[i] < 0)
            failed("descriptors for all connections and a save");
    }
    for (size_t i = 0; i < CONNECTIONS + 2; i++)
        close(taken[i]);
}

static void serve(int listener) {
    for (;;) {
        struct pollfd polled[CONNECTIONS + 1];
        for (size_t i = 0; i < CONNECTIONS; i++)
            polled[i] = (struct pollfd){ .fd = connections[i].fd, .events = is_sending(&connections[i]) ? POLLOUT : POLLIN };
        polled[CONNECTIONS] = (struct pollfd){ .fd = listener, .events = POLLIN };
        if (poll(polled, CONNECTIONS + 1, -1) < 0) {
            if (errno == EINTR)
                continue;
            failed("poll");
        }
        for (size_t i = 0; i < CONNECTIONS; i++) {
            struct connection *c = &connections[i];
            if (c->fd >= 0 && polled[i].revents != 0 && !(is_sending(c) ? send_reply(c) : receive(c)))
                end_connection(c);
        }
        if (polled[CONNECTIONS].revents != 0)
            accept_connection(listener);
    }
}

/* A socket that listens on 127.0.0.1. Rights are not looked at (duty 10), so other machines cannot reach it. */
static int listen_on(uint32_t port) {
    int listener = socket(AF_INET, SOCK_STREAM | SOCK_NONBLOCK | SOCK_CLOEXEC, 0);
    int on = 1;
    struct sockaddr_in own = { .sin_family = AF_INET, .sin_port = htons((uint16_t)port), .sin_addr = { .s_addr = htonl(INADDR_LOOPBACK) } };
    socklen_t own_len = sizeof own;
    if (listener < 0 || setsockopt(listener, SOL_SOCKET, SO_REUSEADDR, &on, sizeof on) != 0 ||
        bind(listener, (struct sockaddr *)&own, sizeof own) != 0 || listen(listener, CONNECTIONS) != 0 ||
        getsockname(listener, (struct sockaddr *)&own, &own_len) != 0)
        failed("socket");
    printf("port %u\n", (unsigned)ntohs(own.sin_port));
    fflush(stdout);
    return listener;
}

static uint32_t number(const char *text, uint32_t most) {
    char *end;
    unsigned long n = strtoul(text, &end, 10);
    if (*text < '0' || *text > '9' || *end != 0 || n > most)
        stop(text, "not a number in range");
    return (uint32_t)n;
}

int main(int argc, char **argv) {
    signal(SIGPIPE, SIG_IGN); /* duty 8 */
    sigaction(SIGUSR1, &(struct sigaction){ .sa_handler = on_signal, .sa_flags = SA_RESTART }, NULL); /* a save goes on after it */
    if (argc == 6 && strcmp(argv[1], "--format") == 0) {
        open_place(argv[5]);
        format(number(argv[2], NFS3_OBJECTS_MOST), number(argv[3], NFS3_NAMES_MOST), number(argv[4], NFS3_BLOCKS_MOST));
        return 0;
    }
    if (argc == 3 && strcmp(argv[1], "--stamp") == 0) {
        open_place(argv[2]);
        restamp();
        return 0;
    }
    if (argc != 3)
        stop("usage", "daemon --format OBJECTS NAMES BLOCKS STORE_FILE, daemon --stamp STORE_FILE, or daemon STORE_FILE PORT");
    uint32_t port = number(argv[2], 65535);
    open_place(argv[1]);
    load();
    for (size_t i = 0; i < CONNECTIONS; i++)
        connections[i].fd = -1;
    check_descriptors();
    serve(listen_on(port));
}
