/*
 * Sends calls to a store from C, prints a line for each (procedure, what it is about, status, length of the reply, what came back; with -v also the
 * words of call and reply), and compares answers, replies and the store with bytes written out here from the rules and RFC 1813. Exits 1 on a
 * difference.
 *
 * Two bag tags are files of the root: 0123456789 and 123456789. The second is made EXCLUSIVE: sent again, its CREATE is answered in the same way,
 * and another host's is refused. Each is found under its own name, and 0123456780, which is as long as the first, is not there. The first is
 * removed; its handle is stale then, and the second is as it was. SETATTR gives the second a mode; from then on its CREATE is refused too. Then the
 * second is replaced: a new file is made under the first name and renamed onto the second one.
 *
 * Then the directory 07 is made, and the host 192.0.2.1 mounts the root and the directory by their paths (MOUNT): it gets their handles, and
 * DUMP lists what it mounted, until it unmounts the root.
 *
 * At last the tag 123456789 of the root gets a second name, 0123456789 in the directory (LINK). Both names lead to one file: what is written is read
 * by either, and RENAME of one onto the other changes nothing. The names are removed one by one; the handle is stale after the second.
 */
#include "mount3.h"
#include "same.h"

#include <stdbool.h>
#include <string.h>

/* A word of XDR, most significant byte first. */
#define W(n) (uint8_t)((uint32_t)(n) >> 24), (uint8_t)((uint32_t)(n) >> 16), (uint8_t)((uint32_t)(n) >> 8), (uint8_t)(n)

/* The head of a call: xid, call, RPC version 2, program 100003, version 3, procedure, no credential, no verifier. */
#define CALL(xid, procedure) W(xid), W(0), W(2), W(100003), W(3), W(procedure), W(0), W(0), W(0), W(0)

/* The same for MOUNT: program 100005. */
#define MOUNT_CALL(xid, procedure) W(xid), W(0), W(2), W(100005), W(3), W(procedure), W(0), W(0), W(0), W(0)

/* The head of a reply: xid, reply, accepted, no verifier, success. */
#define REPLY(xid) W(xid), W(1), W(0), W(0), W(0), W(0)

enum { GETATTR = 1, SETATTR = 2, LOOKUP = 3, READ = 6, WRITE = 7, CREATE = 8, MKDIR = 9, REMOVE = 12, RENAME = 14, LINK = 15, READDIR = 16 };
enum { MNT = 1, DUMP = 2, UMNT = 3 };
enum { OK = 0, NOENT = 2, EXIST = 17, INVAL = 22, NOSPC = 28, STALE = 70 };

/* A handle: its length, then the store's stamp, object and generation. */
#define STAMP 0x01020304
#define HANDLE(object, generation) W(12), W(STAMP), W(object), W(generation)
#define ROOT HANDLE(0, 0)
#define FIRST HANDLE(1, 0)
#define SECOND HANDLE(2, 0)
#define THIRD HANDLE(1, 1)
#define DIRECTORY HANDLE(2, 1)

/* The names and contents of the two files, and a name that differs from the first in its last digit, as XDR opaque data. */
#define FIRST_NAME W(10), '0', '1', '2', '3', '4', '5', '6', '7', '8', '9', 0, 0
#define SECOND_NAME W(9), '1', '2', '3', '4', '5', '6', '7', '8', '9', 0, 0, 0
#define MISSING_NAME W(10), '0', '1', '2', '3', '4', '5', '6', '7', '8', '0', 0, 0
#define FIRST_BYTES 'O', 'S', 'L', ' ', 'g', 'a', 't', 'e', ' ', '1', '2', 0
#define FIRST_DATA W(11), FIRST_BYTES
#define SECOND_DATA W(10), 'T', 'R', 'D', ' ', 'g', 'a', 't', 'e', ' ', '7', 0, 0

/* The name of the directory; the paths of the root, of the directory, and of a name that is not there; the host, as a number and as DUMP lists it. */
#define DIRECTORY_NAME W(2), '0', '7', 0, 0
#define ROOT_PATH W(1), '/', 0, 0, 0
#define DIRECTORY_PATH W(3), '/', '0', '7', 0
#define MISSING_PATH W(2), '/', '7', 0, 0
#define HOST 0xC0000201
#define HOST_TEXT W(9), '1', '9', '2', '.', '0', '.', '2', '.', '1', 0, 0, 0

/* The flavors of credentials that MNT tells: two, AUTH_NONE and AUTH_UNIX. */
#define FLAVORS W(2), W(0), W(1)

/* A 64-bit number that fits a word, and a time of whole seconds. */
#define HYPER(n) W(0), W(n)
#define TIME(seconds) W(seconds), W(0)

/* Attributes (fattr3): type, mode, nlink, uid, gid, size, used, rdev, fsid, fileid, atime, mtime, ctime. Most changes set mtime and ctime alike. */
#define ATTRIBUTES(type, mode, nlink, size, used, fileid, atime, mtime, ctime)                                                                \
    W(type), W(mode), W(nlink), W(0), W(0), HYPER(size), HYPER(used), W(0), W(0), HYPER(STAMP), HYPER(fileid), TIME(atime), TIME(mtime),      \
        TIME(ctime)
#define ROOT_ATTRIBUTES(changed) ATTRIBUTES(2, 493, 2, 512, 0, 1, 1000, changed, changed)
#define FIRST_ATTRIBUTES(size, used, changed) ATTRIBUTES(1, 420, 1, size, used, 2, 1001, changed, changed)
#define SECOND_ATTRIBUTES(size, used, changed) ATTRIBUTES(1, 0, 1, size, used, 3, 1002, changed, changed)
#define THIRD_ATTRIBUTES(nlink, size, used, mtime, ctime) ATTRIBUTES(1, 420, nlink, size, used, 2, 1010, mtime, ctime)
#define DIRECTORY_ATTRIBUTES(changed) ATTRIBUTES(2, 493, 2, 512, 0, 3, 1013, changed, changed)
#define PARENT_ATTRIBUTES(changed) ATTRIBUTES(2, 493, 3, 512, 0, 1, 1000, changed, changed) /* of the root, with the directory in it */

/* Attributes before a change (wcc_attr), present. */
#define BEFORE_TIMES(size, mtime, ctime) W(1), HYPER(size), TIME(mtime), TIME(ctime)
#define BEFORE(size, changed) BEFORE_TIMES(size, changed, changed)

/* CREATE's last arguments: GUARDED with mode 420 and nothing else set, and EXCLUSIVE with the verifier of this host, or of another. */
#define MODE_420 W(1), W(420), W(0), W(0), W(0), W(0), W(0)
#define GUARDED_420 W(1), MODE_420
#define MODE_493 W(1), W(493), W(0), W(0), W(0), W(0), W(0)
#define EXCLUSIVE W(2), W(0xFEDCBA98), W(0x76543210)
#define EXCLUSIVE_OTHER W(2), W(0xFEDCBA98), W(0x76543211)

/* An entry of READDIR before its name. */
#define ENTRY(fileid) W(1), HYPER(fileid)
#define DOTS(own, above) ENTRY(own), W(1), '.', 0, 0, 0, HYPER(1), ENTRY(above), W(2), '.', '.', 0, 0, HYPER(2)

/* The verifier that the daemon gives with each call; WRITE sends it. */
#define VERIFIER 0x1122334455667788
#define FILE_SYNC 2

/* Three objects, three names, two blocks. */
enum { OBJECTS = 3, NAMES = 3, BLOCKS = 2, LENGTH = NFS3_STORE_LENGTH(OBJECTS, NAMES, BLOCKS) };
enum { RECORD = 92, VERIFIER_AT = 80, NAME_0 = 16 + RECORD * OBJECTS, NAME_1 = NAME_0 + 44, NAME_2 = NAME_1 + 44, BLOCK_0 = NAME_2 + 48 };
#define NO_BLOCKS_4 255, 255, 255, 255, 255, 255, 255, 255
#define NO_BLOCKS NO_BLOCKS_4, NO_BLOCKS_4, NO_BLOCKS_4, NO_BLOCKS_4
#define BLOCK_0_ALONE 0, 0, 255, 255, 255, 255, 255, 255, NO_BLOCKS_4, NO_BLOCKS_4, NO_BLOCKS_4

/*
 * The store while a file has two names: it is object 1 of generation 1, in the name record that it was made with and in the third one; the directory is
 * object 2 of generation 1, in the second name record.
 */
static const uint8_t linked[LENGTH] = {
    W(1), W(STAMP),
    W(OBJECTS),
    W(2), W(0), W(493), W(0), W(0), W(0), TIME(1000), TIME(1013), TIME(1013), NO_BLOCKS,
    [12 + RECORD * 1] = W(1), W(1), W(420), W(0), W(0), W(11), TIME(1010), TIME(1015), TIME(1015), BLOCK_0_ALONE,
    [12 + RECORD * 2] = W(2), W(1), W(493), W(0), W(0), W(0), TIME(1013), TIME(1014), TIME(1014), NO_BLOCKS,
    [NAME_0 - 4] = W(NAMES),
    [NAME_0] = W(0), W(1), SECOND_NAME,
    [NAME_1] = W(0), W(2), DIRECTORY_NAME,
    [NAME_2] = W(2), W(1), FIRST_NAME,
    [BLOCK_0 - 4] = W(BLOCKS),
    FIRST_BYTES,
};

/* The store at the end: object 1 is free, of generation 2, and so are its two names; the block that it had is zero. */
static const uint8_t last[LENGTH] = {
    W(1), W(STAMP),
    W(OBJECTS),
    W(2), W(0), W(493), W(0), W(0), W(0), TIME(1000), TIME(1018), TIME(1018), NO_BLOCKS,
    [12 + RECORD * 1] = W(0), W(2),
    [12 + RECORD * 2] = W(2), W(1), W(493), W(0), W(0), W(0), TIME(1013), TIME(1020), TIME(1020), NO_BLOCKS,
    [NAME_0 - 4] = W(NAMES),
    [NAME_1] = W(0), W(2), DIRECTORY_NAME,
    [BLOCK_0 - 4] = W(BLOCKS),
};

/* The mount table at the end: the first row is free again, the second has the host and the path of the directory. */
static const uint8_t last_table[MOUNT3_TABLE_LENGTH] = { [MOUNT3_ROW_LENGTH] = W(HOST), DIRECTORY_PATH };

static uint8_t store[LENGTH], table[MOUNT3_TABLE_LENGTH], reply[MOUNT3_REPLY_SPACE]; /* an empty table is all zero */
static bool verbose;
static int calls;

static uint32_t word(const uint8_t *bytes, size_t at) {
    return (uint32_t)bytes[at] << 24 | (uint32_t)bytes[at + 1] << 16 | (uint32_t)bytes[at + 2] << 8 | bytes[at + 3];
}

static void print_words(const char *what, const uint8_t *bytes, size_t len) {
    printf("    %s, %u bytes:", what, (unsigned)len);
    for (size_t i = 0; i + 4 <= len; i += 4)
        printf("%s%08X", i % 32 == 0 ? "\n      " : " ", (unsigned)word(bytes, i));
    printf("\n");
}

static void print_text(const uint8_t *bytes, size_t len) {
    printf("\"%.*s\"", (int)len, (const char *)bytes);
}

static const char *procedure_name(uint32_t procedure) {
    switch (procedure) {
    case GETATTR: return "GETATTR";
    case SETATTR: return "SETATTR";
    case LOOKUP: return "LOOKUP";
    case READ: return "READ";
    case WRITE: return "WRITE";
    case CREATE: return "CREATE";
    case MKDIR: return "MKDIR";
    case REMOVE: return "REMOVE";
    case RENAME: return "RENAME";
    case LINK: return "LINK";
    case READDIR: return "READDIR";
    default: return "another";
    }
}

static const char *mount_procedure_name(uint32_t procedure) {
    switch (procedure) {
    case MNT: return "MNT";
    case DUMP: return "DUMP";
    case UMNT: return "UMNT";
    default: return "another";
    }
}

static const char *status_name(uint32_t status) {
    switch (status) {
    case OK: return "OK";
    case NOENT: return "NOENT";
    case EXIST: return "EXIST";
    case INVAL: return "INVAL";
    case NOSPC: return "NOSPC";
    case STALE: return "STALE";
    default: return "another";
    }
}

/* The entries of a READDIR reply, from its first one. */
static void tell_entries(size_t len) {
    size_t at = 124;
    while (at + 16 <= len && word(reply, at) == 1) {
        uint32_t name = word(reply, at + 12);
        if (name > NFS3_NAME_MOST || at + 24 + name > len)
            return;
        print_text(reply + at + 16, name);
        printf(" with fileid %u, ", (unsigned)word(reply, at + 8));
        at += 24 + (name + 3) / 4 * 4;
    }
    if (at + 8 <= len)
        printf(word(reply, at + 4) ? "no more" : "more to come");
}

/* What an OK reply says in plain words. */
static void tell_result(uint32_t procedure, size_t len) {
    if (procedure == GETATTR && len == 112)
        printf("size %u, nlink %u", (unsigned)word(reply, 52), (unsigned)word(reply, 36));
    if (procedure == LOOKUP && len == 220)
        printf("object %u", (unsigned)word(reply, 36));
    if ((procedure == CREATE || procedure == MKDIR) && len == 252)
        printf("handle: stamp %08X, object %u, generation %u", (unsigned)word(reply, 36), (unsigned)word(reply, 40), (unsigned)word(reply, 44));
    if (procedure == WRITE && len == 160)
        printf("%u bytes written", (unsigned)word(reply, 144));
    if (procedure == READ && len >= 128 && word(reply, 124) <= len - 128) {
        printf("%u bytes: ", (unsigned)word(reply, 124));
        print_text(reply + 128, word(reply, 124));
    }
    if (procedure == SETATTR && len == 144)
        printf("mode %o", (unsigned)word(reply, 64));
    if (procedure == REMOVE && len == 144)
        printf("the name is free again");
    if (procedure == RENAME && len == 260) /* times of the first directory, before and after */
        printf(memcmp(reply + 40, reply + 128, 16) == 0 ? "nothing changed" : "now 123456789");
    if (procedure == LINK && len == 232)
        printf("nlink %u", (unsigned)word(reply, 40));
    if (procedure == READDIR)
        tell_entries(len);
}

/* One line on what came back: with answer 0 a reply with a status. */
static void tell(const char *about, uint32_t procedure, struct nfs3_answer a) {
    printf("%-8s %-13s ", procedure_name(procedure), about);
    if (a.number != NFS3_DONE || a.length < 28 || a.length > sizeof reply) {
        printf("answer %u, length %u\n", (unsigned)a.number, (unsigned)a.length);
        return;
    }
    printf("%-6s %4u bytes  ", status_name(word(reply, 24)), (unsigned)a.length);
    if (word(reply, 24) == OK)
        tell_result(procedure, a.length);
    else if (word(reply, 24) == STALE)
        printf("the handle of a file that is no more");
    else if (word(reply, 24) == NOENT)
        printf("there is no such name");
    else if (word(reply, 24) == EXIST)
        printf("the name is taken");
    else if (word(reply, 24) == INVAL)
        printf("a directory has one name");
    else if (word(reply, 24) == NOSPC)
        printf("no name record is free");
    printf("\n");
}

/* Prints a text of the reply whose length word is at a place, and gives the place after it, or the reply's end where it is cut. */
static size_t tell_text(size_t at, size_t len) {
    if (at + 4 > len || word(reply, at) > len - at - 4)
        return len;
    print_text(reply + at + 4, word(reply, at));
    return at + 4 + (word(reply, at) + 3) / 4 * 4;
}

/* The rows of a reply to DUMP. */
static void tell_rows(size_t len) {
    size_t at = 24;
    while (at + 4 <= len && word(reply, at) == 1) {
        at = tell_text(at + 4, len);
        printf(" has mounted ");
        at = tell_text(at, len);
        printf(", ");
    }
    printf("no more");
}

/* One line on what came back from MOUNT. Only MNT has a status. */
static void tell_mount(const char *about, uint32_t procedure, struct nfs3_answer a) {
    printf("%-8s %-13s ", mount_procedure_name(procedure), about);
    if (a.number != NFS3_DONE || a.length < 24 || a.length > sizeof reply) {
        printf("answer %u, length %u\n", (unsigned)a.number, (unsigned)a.length);
        return;
    }
    printf("%-6s %4u bytes  ", procedure == MNT ? status_name(word(reply, 24)) : "", (unsigned)a.length);
    if (procedure == MNT && a.length == 56)
        printf("handle: stamp %08X, object %u, generation %u", (unsigned)word(reply, 32), (unsigned)word(reply, 36), (unsigned)word(reply, 40));
    else if (procedure == MNT && word(reply, 24) == NOENT)
        printf("there is no such name");
    else if (procedure == DUMP)
        tell_rows(a.length);
    else if (procedure == UMNT)
        printf("the row is free again");
    printf("\n");
}

/*
 * Sends a call to the library of its program, tells what came back, and compares it with the wanted reply. The reply space past the reply stays as
 * it was.
 */
static void send(const char *about, uint32_t seconds, const uint8_t *call, size_t call_len, const uint8_t *wanted, size_t wanted_len) {
    memset(reply, 0x5A, sizeof reply);
    struct nfs3_answer a;
    if (word(call, 12) == MOUNT3_PROGRAM) {
        a = mount3_call(call, call_len, store, LENGTH, table, sizeof table, reply, sizeof reply, HOST);
        tell_mount(about, word(call, 20), a);
    } else {
        a = nfs3_call(call, call_len, store, LENGTH, reply, sizeof reply, seconds, 0, VERIFIER);
        tell(about, word(call, 20), a);
    }
    calls++;
    if (verbose) {
        print_words("call", call, call_len);
        print_words("reply", reply, a.length <= sizeof reply ? a.length : 0);
    }
    same_answer(about, a, NFS3_DONE, wanted_len);
    same_bytes(about, reply, wanted, wanted_len);
    for (size_t i = wanted_len; i < sizeof reply; i++) {
        if (reply[i] != 0x5A) {
            printf("%s: byte %u, past the reply, is changed\n", about, (unsigned)i);
            differences++;
            return;
        }
    }
}

static void check_store(const uint8_t *wanted) {
    printf("check    the store, and each of its %d bytes\n", LENGTH);
    same_answer("the check", nfs3_check(store, LENGTH), NFS3_DONE, 0);
    same_bytes("the store", store, wanted, LENGTH);
}

#define SEND(about, seconds, call, wanted) send(about, seconds, call, sizeof call, wanted, sizeof wanted)

static void make(void) {
    static const uint8_t create_first[] = { CALL(1, CREATE), ROOT, FIRST_NAME, GUARDED_420 };
    static const uint8_t created_first[] = { REPLY(1), W(OK), W(1), FIRST, W(1), FIRST_ATTRIBUTES(0, 0, 1001),
                                             BEFORE(512, 1000), W(1), ROOT_ATTRIBUTES(1001) };
    static const uint8_t create_second[] = { CALL(2, CREATE), ROOT, SECOND_NAME, EXCLUSIVE };
    static const uint8_t created_second[] = { REPLY(2), W(OK), W(1), SECOND, W(1), SECOND_ATTRIBUTES(0, 0, 1002),
                                              BEFORE(512, 1001), W(1), ROOT_ATTRIBUTES(1002) };
    static const uint8_t write_first[] = { CALL(3, WRITE), FIRST, HYPER(0), W(11), W(FILE_SYNC), FIRST_DATA };
    static const uint8_t wrote_first[] = { REPLY(3), W(OK), BEFORE(0, 1001), W(1), FIRST_ATTRIBUTES(11, 512, 1003),
                                           W(11), W(FILE_SYNC), W(0x11223344), W(0x55667788) };
    static const uint8_t write_second[] = { CALL(4, WRITE), SECOND, HYPER(0), W(10), W(FILE_SYNC), SECOND_DATA };
    static const uint8_t wrote_second[] = { REPLY(4), W(OK), BEFORE(0, 1002), W(1), SECOND_ATTRIBUTES(10, 512, 1004),
                                            W(10), W(FILE_SYNC), W(0x11223344), W(0x55667788) };
    SEND("0123456789", 1001, create_first, created_first);
    SEND("123456789", 1002, create_second, created_second);
    SEND("0123456789", 1003, write_first, wrote_first);
    SEND("123456789", 1004, write_second, wrote_second);
}

/* Hosts that make the second tag EXCLUSIVE, while it is there: the one that made it, with its verifier, and another one. */
static void make_again(void) {
    static const uint8_t create_again[] = { CALL(15, CREATE), ROOT, SECOND_NAME, EXCLUSIVE };
    static const uint8_t created_again[] = { REPLY(15), W(OK), W(1), SECOND, W(1), SECOND_ATTRIBUTES(10, 512, 1004),
                                             BEFORE(512, 1002), W(1), ROOT_ATTRIBUTES(1002) };
    static const uint8_t create_other[] = { CALL(16, CREATE), ROOT, SECOND_NAME, EXCLUSIVE_OTHER };
    static const uint8_t not_created[] = { REPLY(16), W(EXIST), BEFORE(512, 1002), W(1), ROOT_ATTRIBUTES(1002) };
    static const uint8_t kept[] = { W(0xFEDCBA98), W(0x76543210), W(1) };
    SEND("123456789", 1005, create_again, created_again);
    SEND("123456789", 1005, create_other, not_created);
    same_bytes("the verifier in the store", store + 12 + RECORD * 2 + VERIFIER_AT, kept, sizeof kept);
}

static void look(void) {
    static const uint8_t list[] = { CALL(5, READDIR), ROOT, HYPER(0), HYPER(0), W(4096) };
    static const uint8_t listed[] = { REPLY(5), W(OK), W(1), ROOT_ATTRIBUTES(1002), HYPER(0), DOTS(1, 1), ENTRY(2), FIRST_NAME, HYPER(3),
                                      ENTRY(3), SECOND_NAME, HYPER(4), W(0), W(1) };
    static const uint8_t read_first[] = { CALL(6, READ), FIRST, HYPER(0), W(4096) };
    static const uint8_t got_first[] = { REPLY(6), W(OK), W(1), FIRST_ATTRIBUTES(11, 512, 1003), W(11), W(1), FIRST_DATA };
    static const uint8_t read_second[] = { CALL(7, READ), SECOND, HYPER(0), W(4096) };
    static const uint8_t got_second[] = { REPLY(7), W(OK), W(1), SECOND_ATTRIBUTES(10, 512, 1004), W(10), W(1), SECOND_DATA };
    SEND("the root", 1005, list, listed);
    SEND("0123456789", 1005, read_first, got_first);
    SEND("123456789", 1005, read_second, got_second);
}

/* Each tag is found under its own digits alone. */
static void look_up(void) {
    static const uint8_t find_first[] = { CALL(24, LOOKUP), ROOT, FIRST_NAME };
    static const uint8_t found_first[] = { REPLY(24), W(OK), FIRST, W(1), FIRST_ATTRIBUTES(11, 512, 1003), W(1), ROOT_ATTRIBUTES(1002) };
    static const uint8_t find_second[] = { CALL(25, LOOKUP), ROOT, SECOND_NAME };
    static const uint8_t found_second[] = { REPLY(25), W(OK), SECOND, W(1), SECOND_ATTRIBUTES(10, 512, 1004), W(1), ROOT_ATTRIBUTES(1002) };
    static const uint8_t find_missing[] = { CALL(26, LOOKUP), ROOT, MISSING_NAME };
    static const uint8_t not_found[] = { REPLY(26), W(NOENT), W(1), ROOT_ATTRIBUTES(1002) };
    SEND("0123456789", 1005, find_first, found_first);
    SEND("123456789", 1005, find_second, found_second);
    SEND("0123456780", 1005, find_missing, not_found);
}

static void take_away(void) {
    static const uint8_t remove_first[] = { CALL(8, REMOVE), ROOT, FIRST_NAME };
    static const uint8_t removed_first[] = { REPLY(8), W(OK), BEFORE(512, 1002), W(1), ROOT_ATTRIBUTES(1005) };
    static const uint8_t getattr_first[] = { CALL(9, GETATTR), FIRST };
    static const uint8_t getattr_stale[] = { REPLY(9), W(STALE) };
    static const uint8_t read_first[] = { CALL(10, READ), FIRST, HYPER(0), W(4096) };
    static const uint8_t read_stale[] = { REPLY(10), W(STALE), W(0) };
    static const uint8_t write_first[] = { CALL(11, WRITE), FIRST, HYPER(0), W(11), W(FILE_SYNC), FIRST_DATA };
    static const uint8_t write_stale[] = { REPLY(11), W(STALE), W(0), W(0) };
    SEND("0123456789", 1005, remove_first, removed_first);
    SEND("0123456789", 1006, getattr_first, getattr_stale);
    SEND("0123456789", 1006, read_first, read_stale);
    SEND("0123456789", 1006, write_first, write_stale);
}

static void look_again(void) {
    static const uint8_t list[] = { CALL(12, READDIR), ROOT, HYPER(0), HYPER(0), W(4096) };
    static const uint8_t listed[] = { REPLY(12), W(OK), W(1), ROOT_ATTRIBUTES(1005), HYPER(0), DOTS(1, 1), ENTRY(3), SECOND_NAME, HYPER(4), W(0), W(1) };
    static const uint8_t getattr_second[] = { CALL(13, GETATTR), SECOND };
    static const uint8_t attributes_second[] = { REPLY(13), W(OK), SECOND_ATTRIBUTES(10, 512, 1004) };
    static const uint8_t read_second[] = { CALL(14, READ), SECOND, HYPER(0), W(4096) };
    static const uint8_t got_second[] = { REPLY(14), W(OK), W(1), SECOND_ATTRIBUTES(10, 512, 1004), W(10), W(1), SECOND_DATA };
    SEND("the root", 1007, list, listed);
    SEND("123456789", 1007, getattr_second, attributes_second);
    SEND("123456789", 1007, read_second, got_second);
}

static void settle(void) {
    static const uint8_t set_mode[] = { CALL(17, SETATTR), SECOND, MODE_420, W(0) };
    static const uint8_t mode_set[] = { REPLY(17), W(OK), BEFORE(10, 1004), W(1), ATTRIBUTES(1, 420, 1, 10, 512, 3, 1002, 1004, 1008) };
    static const uint8_t create_again[] = { CALL(18, CREATE), ROOT, SECOND_NAME, EXCLUSIVE };
    static const uint8_t not_created[] = { REPLY(18), W(EXIST), BEFORE(512, 1005), W(1), ROOT_ATTRIBUTES(1005) };
    SEND("123456789", 1008, set_mode, mode_set);
    SEND("123456789", 1009, create_again, not_created);
}

/* A file under the first name takes the place of the second; then it is renamed onto its own name, which changes nothing. */
static void replace(void) {
    static const uint8_t create_third[] = { CALL(19, CREATE), ROOT, FIRST_NAME, GUARDED_420 };
    static const uint8_t created_third[] = { REPLY(19), W(OK), W(1), THIRD, W(1), THIRD_ATTRIBUTES(1, 0, 0, 1010, 1010),
                                             BEFORE(512, 1005), W(1), ROOT_ATTRIBUTES(1010) };
    static const uint8_t rename_third[] = { CALL(20, RENAME), ROOT, FIRST_NAME, ROOT, SECOND_NAME };
    static const uint8_t renamed_third[] = { REPLY(20), W(OK), BEFORE(512, 1010), W(1), ROOT_ATTRIBUTES(1011),
                                             BEFORE(512, 1010), W(1), ROOT_ATTRIBUTES(1011) };
    static const uint8_t getattr_second[] = { CALL(21, GETATTR), SECOND };
    static const uint8_t getattr_stale[] = { REPLY(21), W(STALE) };
    static const uint8_t getattr_third[] = { CALL(22, GETATTR), THIRD };
    static const uint8_t attributes_third[] = { REPLY(22), W(OK), THIRD_ATTRIBUTES(1, 0, 0, 1010, 1011) };
    static const uint8_t rename_itself[] = { CALL(23, RENAME), ROOT, SECOND_NAME, ROOT, SECOND_NAME };
    static const uint8_t not_renamed[] = { REPLY(23), W(OK), BEFORE(512, 1011), W(1), ROOT_ATTRIBUTES(1011),
                                           BEFORE(512, 1011), W(1), ROOT_ATTRIBUTES(1011) };
    SEND("0123456789", 1010, create_third, created_third);
    SEND("0123456789", 1011, rename_third, renamed_third);
    SEND("123456789", 1012, getattr_second, getattr_stale);
    SEND("123456789", 1012, getattr_third, attributes_third);
    SEND("123456789", 1012, rename_itself, not_renamed);
}

/* A directory, which a host mounts by its path, and the root. */
static void mount(void) {
    static const uint8_t make_directory[] = { CALL(27, MKDIR), ROOT, DIRECTORY_NAME, MODE_493 };
    static const uint8_t made_directory[] = { REPLY(27), W(OK), W(1), DIRECTORY, W(1), DIRECTORY_ATTRIBUTES(1013),
                                              BEFORE(512, 1011), W(1), PARENT_ATTRIBUTES(1013) };
    static const uint8_t mount_root[] = { MOUNT_CALL(28, MNT), ROOT_PATH };
    static const uint8_t mounted_root[] = { REPLY(28), W(OK), ROOT, FLAVORS };
    static const uint8_t mount_directory[] = { MOUNT_CALL(29, MNT), DIRECTORY_PATH };
    static const uint8_t mounted_directory[] = { REPLY(29), W(OK), DIRECTORY, FLAVORS };
    static const uint8_t mount_missing[] = { MOUNT_CALL(30, MNT), MISSING_PATH };
    static const uint8_t not_mounted[] = { REPLY(30), W(NOENT) };
    static const uint8_t list[] = { MOUNT_CALL(31, DUMP) };
    static const uint8_t listed[] = { REPLY(31), W(1), HOST_TEXT, ROOT_PATH, W(1), HOST_TEXT, DIRECTORY_PATH, W(0) };
    static const uint8_t unmount_root[] = { MOUNT_CALL(32, UMNT), ROOT_PATH };
    static const uint8_t unmounted_root[] = { REPLY(32) };
    static const uint8_t list_again[] = { MOUNT_CALL(33, DUMP) };
    static const uint8_t listed_again[] = { REPLY(33), W(1), HOST_TEXT, DIRECTORY_PATH, W(0) };
    SEND("07", 1013, make_directory, made_directory);
    SEND("/", 1013, mount_root, mounted_root);
    SEND("/07", 1013, mount_directory, mounted_directory);
    SEND("/7", 1013, mount_missing, not_mounted);
    SEND("the table", 1013, list, listed);
    SEND("/", 1013, unmount_root, unmounted_root);
    SEND("the table", 1013, list_again, listed_again);
}

/* The file of the root is linked into the directory; there is no name record left then. */
static void link_file(void) {
    static const uint8_t link_third[] = { CALL(34, LINK), THIRD, DIRECTORY, FIRST_NAME };
    static const uint8_t linked_third[] = { REPLY(34), W(OK), W(1), THIRD_ATTRIBUTES(2, 0, 0, 1010, 1014),
                                            BEFORE(512, 1013), W(1), DIRECTORY_ATTRIBUTES(1014) };
    static const uint8_t write_third[] = { CALL(35, WRITE), THIRD, HYPER(0), W(11), W(FILE_SYNC), FIRST_DATA };
    static const uint8_t wrote_third[] = { REPLY(35), W(OK), BEFORE_TIMES(0, 1010, 1014), W(1), THIRD_ATTRIBUTES(2, 11, 512, 1015, 1015),
                                           W(11), W(FILE_SYNC), W(0x11223344), W(0x55667788) };
    static const uint8_t link_again[] = { CALL(36, LINK), THIRD, DIRECTORY, FIRST_NAME };
    static const uint8_t name_taken[] = { REPLY(36), W(EXIST), W(1), THIRD_ATTRIBUTES(2, 11, 512, 1015, 1015),
                                          BEFORE(512, 1014), W(1), DIRECTORY_ATTRIBUTES(1014) };
    static const uint8_t link_more[] = { CALL(37, LINK), THIRD, ROOT, FIRST_NAME };
    static const uint8_t no_record[] = { REPLY(37), W(NOSPC), W(1), THIRD_ATTRIBUTES(2, 11, 512, 1015, 1015),
                                         BEFORE(512, 1013), W(1), PARENT_ATTRIBUTES(1013) };
    static const uint8_t link_directory[] = { CALL(38, LINK), DIRECTORY, ROOT, FIRST_NAME };
    static const uint8_t not_linked[] = { REPLY(38), W(INVAL), W(1), DIRECTORY_ATTRIBUTES(1014), BEFORE(512, 1013), W(1), PARENT_ATTRIBUTES(1013) };
    static const uint8_t link_stale[] = { CALL(39, LINK), SECOND, DIRECTORY, SECOND_NAME };
    static const uint8_t is_stale[] = { REPLY(39), W(STALE), W(0), BEFORE(512, 1014), W(1), DIRECTORY_ATTRIBUTES(1014) };
    SEND("07/0123456789", 1014, link_third, linked_third);
    SEND("07/0123456789", 1015, write_third, wrote_third);
    SEND("07/0123456789", 1016, link_again, name_taken);
    SEND("0123456789", 1016, link_more, no_record);
    SEND("07", 1016, link_directory, not_linked);
    SEND("07/123456789", 1016, link_stale, is_stale);
}

/* Both names lead to the file; RENAME between them leaves both. */
static void look_by_names(void) {
    static const uint8_t find_first[] = { CALL(40, LOOKUP), DIRECTORY, FIRST_NAME };
    static const uint8_t found_first[] = { REPLY(40), W(OK), THIRD, W(1), THIRD_ATTRIBUTES(2, 11, 512, 1015, 1015), W(1), DIRECTORY_ATTRIBUTES(1014) };
    static const uint8_t find_second[] = { CALL(41, LOOKUP), ROOT, SECOND_NAME };
    static const uint8_t found_second[] = { REPLY(41), W(OK), THIRD, W(1), THIRD_ATTRIBUTES(2, 11, 512, 1015, 1015), W(1), PARENT_ATTRIBUTES(1013) };
    static const uint8_t list[] = { CALL(42, READDIR), DIRECTORY, HYPER(0), HYPER(0), W(4096) };
    static const uint8_t listed[] = { REPLY(42), W(OK), W(1), DIRECTORY_ATTRIBUTES(1014), HYPER(0), DOTS(3, 1), ENTRY(2), FIRST_NAME, HYPER(5),
                                      W(0), W(1) };
    static const uint8_t rename_names[] = { CALL(43, RENAME), ROOT, SECOND_NAME, DIRECTORY, FIRST_NAME };
    static const uint8_t not_renamed[] = { REPLY(43), W(OK), BEFORE(512, 1013), W(1), PARENT_ATTRIBUTES(1013),
                                           BEFORE(512, 1014), W(1), DIRECTORY_ATTRIBUTES(1014) };
    SEND("07/0123456789", 1017, find_first, found_first);
    SEND("123456789", 1017, find_second, found_second);
    SEND("07", 1017, list, listed);
    SEND("123456789", 1017, rename_names, not_renamed);
    check_store(linked);
}

/* The handle is live until the last name is removed. */
static void remove_names(void) {
    static const uint8_t remove_second[] = { CALL(44, REMOVE), ROOT, SECOND_NAME };
    static const uint8_t removed_second[] = { REPLY(44), W(OK), BEFORE(512, 1013), W(1), PARENT_ATTRIBUTES(1018) };
    static const uint8_t find_second[] = { CALL(45, LOOKUP), ROOT, SECOND_NAME };
    static const uint8_t not_found[] = { REPLY(45), W(NOENT), W(1), PARENT_ATTRIBUTES(1018) };
    static const uint8_t read_third[] = { CALL(46, READ), THIRD, HYPER(0), W(4096) };
    static const uint8_t got_third[] = { REPLY(46), W(OK), W(1), THIRD_ATTRIBUTES(1, 11, 512, 1015, 1018), W(11), W(1), FIRST_DATA };
    static const uint8_t getattr_third[] = { CALL(47, GETATTR), THIRD };
    static const uint8_t attributes_third[] = { REPLY(47), W(OK), THIRD_ATTRIBUTES(1, 11, 512, 1015, 1018) };
    static const uint8_t remove_first[] = { CALL(48, REMOVE), DIRECTORY, FIRST_NAME };
    static const uint8_t removed_first[] = { REPLY(48), W(OK), BEFORE(512, 1014), W(1), DIRECTORY_ATTRIBUTES(1020) };
    static const uint8_t getattr_again[] = { CALL(49, GETATTR), THIRD };
    static const uint8_t getattr_stale[] = { REPLY(49), W(STALE) };
    SEND("123456789", 1018, remove_second, removed_second);
    SEND("123456789", 1019, find_second, not_found);
    SEND("07/0123456789", 1019, read_third, got_third);
    SEND("07/0123456789", 1019, getattr_third, attributes_third);
    SEND("07/0123456789", 1020, remove_first, removed_first);
    SEND("07/0123456789", 1021, getattr_again, getattr_stale);
}

int main(int argc, char **argv) {
    verbose = argc == 2 && strcmp(argv[1], "-v") == 0;
    if (argc > 2 || (argc == 2 && !verbose)) {
        fprintf(stderr, "usage: run [-v]\n");
        return 2;
    }
    printf("format   %d objects, %d names, %d blocks: %d bytes\n", OBJECTS, NAMES, BLOCKS, LENGTH);
    same_answer("format", nfs3_format(store, LENGTH, STAMP, OBJECTS, NAMES, BLOCKS, 1000, 0), NFS3_DONE, 0);
    make();
    make_again();
    look();
    look_up();
    take_away();
    look_again();
    settle();
    replace();
    mount();
    link_file();
    look_by_names();
    remove_names();
    check_store(last);
    printf("check    each of the %d bytes of the mount table\n", MOUNT3_TABLE_LENGTH);
    same_bytes("the mount table", table, last_table, MOUNT3_TABLE_LENGTH);
    return end("run", calls);
}
