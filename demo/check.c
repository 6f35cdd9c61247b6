/*
 * Calls the check, format and the converter from C, mount3_call with good and bad tables, and nfs3_call and mount3_call with calls that cannot be read;
 * prints a line for each answer, and compares it and the bytes with those written out here from the rules of the store, of the mount table and of a
 * call. Exits 1 on a difference.
 */
#include "mount3.h"
#include "same.h"

#include <string.h>

static int steps;

static void same_number(const char *what, struct nfs3_answer a, uint32_t number) {
    steps++;
    printf("answer %-2u %s\n", (unsigned)a.number, what);
    same_answer(what, a, number, 0);
}

/* P=1, Q=0, R=0, stamp 0x01020304, clock 0x0A0B0C0D seconds and 999,999,999 nanoseconds: 112 bytes. */
static const uint8_t smallest[112] = {
    0, 0, 0, 1, 1, 2, 3, 4,                                                     /* volume: count 1, stamp */
    0, 0, 0, 1,                                                                 /* objects: 1 */
    0, 0, 0, 2, 0, 0, 0, 0, 0, 0, 1, 0xED,                                      /* a directory, generation 0, mode 493 */
    0, 0, 0, 0, 0, 0, 0, 0, 0, 0, 0, 0,                                         /* uid 0, gid 0, size 0 */
    0x0A, 0x0B, 0x0C, 0x0D, 0x3B, 0x9A, 0xC9, 0xFF,                             /* atime */
    0x0A, 0x0B, 0x0C, 0x0D, 0x3B, 0x9A, 0xC9, 0xFF,                             /* mtime */
    0x0A, 0x0B, 0x0C, 0x0D, 0x3B, 0x9A, 0xC9, 0xFF,                             /* ctime */
    255, 255, 255, 255, 255, 255, 255, 255, 255, 255, 255, 255, 255, 255, 255, 255, /* 16 block numbers, each 65535 */
    255, 255, 255, 255, 255, 255, 255, 255, 255, 255, 255, 255, 255, 255, 255, 255,
    0, 0, 0, 0, 0, 0, 0, 0, 0, 0, 0, 0,                                         /* no verifier: 8 bytes and a flag of 0 */
    0, 0, 0, 0,                                                                 /* names: 0 */
    0, 0, 0, 0,                                                                 /* blocks: 0 */
};

/* The records of a store with P=3, Q=2, R=2: in the root the directory "d", and in that the file "f" of 600 bytes in the blocks 1 and 0. */
enum { LENGTH = NFS3_STORE_LENGTH(3, 2, 2), DIRECTORY = 104, FILE_RECORD = 196, NAME_D = 292, NAME_F = 336 };

/* Where the verifier and the flag stand in a record: both are 0 in these. */
enum { VERIFIER = 80, FLAG = 88, RECORD = 92 };

static const uint8_t directory_record[RECORD] = {
    0, 0, 0, 2, 0xFF, 0xFF, 0xFF, 0xFE, 0, 0, 0x0F, 0xFF, 0, 0, 0, 7, 0, 0, 0, 8, 0, 0, 0, 0,  /* generation 4,294,967,294, mode 4,095 */
    0, 0, 0, 1, 0, 0, 0, 0, 0, 0, 0, 2, 0, 0, 0, 0, 0, 0, 0, 3, 0x3B, 0x9A, 0xC9, 0xFF,
    255, 255, 255, 255, 255, 255, 255, 255, 255, 255, 255, 255, 255, 255, 255, 255,
    255, 255, 255, 255, 255, 255, 255, 255, 255, 255, 255, 255, 255, 255, 255, 255,
};

static const uint8_t file_record[RECORD] = {
    0, 0, 0, 1, 0, 0, 0, 5, 0, 0, 1, 0xA4, 0, 0, 0, 7, 0, 0, 0, 8, 0, 0, 2, 0x58, /* a regular file, size 600 */
    0, 0, 0, 1, 0, 0, 0, 0, 0, 0, 0, 2, 0, 0, 0, 0, 0, 0, 0, 3, 0, 0, 0, 0,
    0, 1, 0, 0, 255, 255, 255, 255, 255, 255, 255, 255, 255, 255, 255, 255,
    255, 255, 255, 255, 255, 255, 255, 255, 255, 255, 255, 255, 255, 255, 255, 255,
};

static const uint8_t name_d[44] = { 0, 0, 0, 0, 0, 0, 0, 1, 0, 0, 0, 1, 'd' }; /* directory 0, child 1, length 1 */
static const uint8_t name_f[44] = { 0, 0, 0, 1, 0, 0, 0, 2, 0, 0, 0, 1, 'f' }; /* directory 1, child 2, length 1 */

static uint8_t store[LENGTH];

static void make_store(void) {
    same_answer("format of three objects", nfs3_format(store, LENGTH, 9, 3, 2, 2, 0, 0), NFS3_DONE, 0);
    memcpy(store + DIRECTORY, directory_record, RECORD);
    memcpy(store + FILE_RECORD, file_record, RECORD);
    memcpy(store + NAME_D, name_d, 44);
    memcpy(store + NAME_F, name_f, 44);
}

/* The store with one byte changed. */
static void changed(const char *what, size_t at, uint8_t byte, uint32_t number) {
    make_store();
    store[at] = byte;
    same_number(what, nfs3_check(store, LENGTH), number);
}

static void formats(void) {
    uint8_t buffer[112], before[112];
    memset(buffer, 0xA5, sizeof buffer);
    memcpy(before, buffer, sizeof buffer);
    same_number("nanoseconds 1,000,000,000", nfs3_format(buffer, 112, 1, 1, 0, 0, 0, 1000000000), 3);
    same_number("both faults", nfs3_format(buffer, 111, 1, 0, 0, 0, 0, 1000000000), 3);
    same_number("no object", nfs3_format(buffer, 20, 1, 0, 0, 0, 0, 0), 6);
    same_number("65 objects", nfs3_format(buffer, 112, 1, 65, 0, 0, 0, 0), 6);
    same_number("129 names", nfs3_format(buffer, 112, 1, 1, 129, 0, 0, 0), 6);
    same_number("1,025 blocks", nfs3_format(buffer, 112, 1, 1, 0, 1025, 0, 0), 6);
    same_number("one byte less", nfs3_format(buffer, 111, 1, 1, 0, 0, 0, 0), 6);
    same_bytes("refused formats", buffer, before, 112);
    same_number("format", nfs3_format(buffer, 112, 0x01020304, 1, 0, 0, 0x0A0B0C0D, 999999999), 0);
    same_bytes("format", buffer, smallest, 112);
    same_number("what format left", nfs3_check(buffer, 112), 0);
    for (size_t len = 0; len < 111; len++)
        same_answer("a shorter store", nfs3_check(buffer, len), NFS3_BAD_STORE, 0);
    same_number("a shorter store, of any length", nfs3_check(buffer, 111), 1);
}

static void checks(void) {
    make_store();
    same_number("the store as it is", nfs3_check(store, LENGTH), 0);
    changed("another volume count", 3, 2, 1);
    changed("another stamp", 7, 77, 0);
    changed("another count of objects", 11, 4, 1);
    changed("the root a file", 15, 1, 1);
    changed("a type of 3", FILE_RECORD + 3, 3, 1);
    changed("generation 4,294,967,295", DIRECTORY + 7, 0xFF, 1);
    changed("mode 8,191", DIRECTORY + 10, 0x1F, 1);
    changed("nanoseconds 1,000,000,000", DIRECTORY + 46, 0xCA, 1);
    changed("a directory of size 1", DIRECTORY + 23, 1, 1);
    changed("a directory with a block", DIRECTORY + 48, 0, 1);
    changed("one block fewer", FILE_RECORD + 22, 1, 1);
    changed("a block out of range", FILE_RECORD + 49, 2, 1);
    changed("a block twice", FILE_RECORD + 51, 1, 1);
    changed("an unused block number of 65534", FILE_RECORD + 53, 0xFE, 1);
    changed("a verifier of zeros that is kept", FILE_RECORD + FLAG + 3, 1, 0);
    changed("a flag of 2", FILE_RECORD + FLAG + 3, 2, 1);
    changed("a flag of 256", FILE_RECORD + FLAG + 2, 1, 1);
    changed("a verifier that is not kept", FILE_RECORD + VERIFIER, 1, 1);
    changed("a directory with a verifier", DIRECTORY + FLAG + 3, 1, 1);
    changed("the root with a verifier", 12 + FLAG + 3, 1, 1);
    changed("a name of length 2", NAME_F + 11, 2, 1);
    changed("a slash", NAME_F + 12, 0x2F, 1);
    changed("a dot", NAME_F + 12, 0x2E, 1);
    changed("a byte in the padding", NAME_F + 43, 1, 1);
    changed("a name in a file", NAME_F + 3, 2, 1);
    changed("a name in no object", NAME_F + 3, 3, 1);
    changed("the root named", NAME_F + 7, 0, 1);
    changed("a directory named twice", NAME_F + 7, 1, 1);
    changed("a directory in itself", NAME_D + 3, 1, 1);
    changed("a block's contents", LENGTH - 1, 1, 0);
    make_store();
    store[FILE_RECORD + FLAG + 3] = 1;
    store[FILE_RECORD + VERIFIER + 7] = 0xFF;
    same_number("a verifier that is kept", nfs3_check(store, LENGTH), 0);
    make_store();
    memset(store + NAME_F, 0, 44);
    same_number("an object with no name", nfs3_check(store, LENGTH), 1);
    memset(store + FILE_RECORD, 0, RECORD);
    store[FILE_RECORD + 4] = 0xFF;
    same_number("a free object with a generation", nfs3_check(store, LENGTH), 0);
    store[FILE_RECORD + FLAG + 3] = 1;
    same_number("a free object with a verifier", nfs3_check(store, LENGTH), 1);
}

/* Objects 1 and 2 are directories, each in the other: every rule holds but that parents lead to the root. */
static void cycle(void) {
    make_store();
    memcpy(store + FILE_RECORD, directory_record, RECORD);
    same_number("a directory in a directory", nfs3_check(store, LENGTH), 0);
    store[NAME_D + 3] = 2;
    same_number("a cycle of two directories", nfs3_check(store, LENGTH), 1);
}

/* Two names in one directory: distinct, the same, and the same but for a longer one. */
static void names(void) {
    make_store();
    store[NAME_F + 3] = 0;
    same_number("two names in the root", nfs3_check(store, LENGTH), 0);
    store[NAME_F + 12] = 'd';
    same_number("one name twice", nfs3_check(store, LENGTH), 1);
    store[NAME_F + 11] = 2;
    store[NAME_F + 13] = 'd';
    same_number("a longer name", nfs3_check(store, LENGTH), 0);
}

/* The same objects in a store with P=3, Q=18, R=2: the file has a name more for each of the further name records that are used. */
enum { LINKS_LENGTH = NFS3_STORE_LENGTH(3, 18, 2), FURTHER = NAME_F + 44 };
static uint8_t with_links[LINKS_LENGTH];

/* The file has so many further names in the directory "d": A, B and so on. */
static void make_links(size_t further) {
    make_store();
    same_answer("format of 18 names", nfs3_format(with_links, LINKS_LENGTH, 9, 3, 18, 2, 0, 0), NFS3_DONE, 0);
    memcpy(with_links + DIRECTORY, store + DIRECTORY, 2 * RECORD);
    memcpy(with_links + NAME_D, store + NAME_D, 2 * 44);
    for (size_t i = 0; i < further; i++) {
        memcpy(with_links + FURTHER + 44 * i, name_f, 44);
        with_links[FURTHER + 44 * i + 12] = (uint8_t)('A' + i);
    }
}

/* A file with two names, of which one byte of the second is changed. */
static void link_changed(const char *what, size_t at, uint8_t byte, uint32_t number) {
    make_links(1);
    with_links[FURTHER + at] = byte;
    same_number(what, nfs3_check(with_links, LINKS_LENGTH), number);
}

static void links(void) {
    link_changed("a file with two names in a directory", 12, 'A', 0);
    link_changed("a file with two names in two directories", 3, 0, 0);
    link_changed("one name twice, of one file", 12, 'f', 1);
    link_changed("the root with a name, and the file with one", 7, 0, 1);
    make_links(1);
    with_links[FURTHER + 3] = 0;
    with_links[FURTHER + 7] = 1;
    same_number("a directory with two names, and the file with one", nfs3_check(with_links, LINKS_LENGTH), 1);
    make_links(1);
    memset(with_links + NAME_F, 0, 44);
    same_number("a file with its second name alone", nfs3_check(with_links, LINKS_LENGTH), 0);
    make_links(15);
    same_number("a file with 16 names", nfs3_check(with_links, LINKS_LENGTH), 0);
    make_links(16);
    same_number("a file with 17 names", nfs3_check(with_links, LINKS_LENGTH), 1);
}

/* 64 objects and 128 names in the root: 63 files, of which the first four have 16 names each, and the fifth has 6. */
static void most_names(void) {
    enum { MOST = NFS3_STORE_LENGTH(64, 128, 0), OBJECTS = 12, NAMES = OBJECTS + RECORD * 64 + 4, SIZE = 20, NUMBERS = 48 };
    static uint8_t most[MOST];
    same_answer("format of 64 objects", nfs3_format(most, MOST, 9, 64, 128, 0, 0, 0), NFS3_DONE, 0);
    for (size_t o = 1; o < 64; o++) {
        uint8_t *at = most + OBJECTS + RECORD * o;
        memcpy(at, file_record, RECORD);
        memset(at + SIZE, 0, 4);
        memset(at + NUMBERS, 255, 4);
    }
    for (size_t n = 0; n < 128; n++) {
        uint8_t file = (uint8_t)(n < 63 ? 1 + n : 1 + (n - 63) / 15);
        uint8_t name[44] = { [7] = file, [11] = 2, [12] = (uint8_t)('a' + n / 16), [13] = (uint8_t)('a' + n % 16) };
        memcpy(most + NAMES + 44 * n, name, 44);
    }
    same_number("64 objects with 128 names", nfs3_check(most, MOST), 0);
    most[NAMES + 44 * 127 + 7] = 1;
    same_number("64 objects with 128 names, 17 of them of one file", nfs3_check(most, MOST), 1);
}

enum { OLD_LENGTH = NFS3_OLD_STORE_LENGTH(3, 2, 2), OLD_RECORD = 80 };
static uint8_t old[OLD_LENGTH + 1], target[LENGTH + 1], before[LENGTH + 1];

/* Copies a store of three objects without the verifier and the flag of each: in the old layout. */
static void put_old(uint8_t *to, const uint8_t *from, size_t len) {
    memcpy(to, from, 12);
    for (size_t o = 0; o < 3; o++)
        memcpy(to + 12 + OLD_RECORD * o, from + 12 + RECORD * o, OLD_RECORD);
    memcpy(to + 12 + OLD_RECORD * 3, from + 12 + RECORD * 3, len - 12 - RECORD * 3);
}

/* Takes the store in the old layout. The target gets other bytes. */
static void make_old(void) {
    make_store();
    put_old(old, store, LENGTH);
    old[OLD_LENGTH] = 0;
    memset(target, 0xA5, sizeof target);
    memcpy(before, target, sizeof target);
}

/* A conversion that changes nothing. */
static void not_converted(const char *what, size_t old_len, size_t target_len, uint32_t number) {
    same_number(what, nfs3_convert(old, old_len, target, target_len), number);
    same_bytes(what, target, before, sizeof target);
}

/* The old store with one byte changed. */
static void old_changed(const char *what, size_t at, uint8_t byte) {
    make_old();
    old[at] = byte;
    not_converted(what, OLD_LENGTH, LENGTH, 1);
}

static void conversions(void) {
    make_old();
    same_number("the old store in the check", nfs3_check(old, OLD_LENGTH), 1);
    same_number("conversion", nfs3_convert(old, OLD_LENGTH, target, LENGTH), 0);
    same_bytes("conversion", target, store, LENGTH);
    same_bytes("behind the target", target + LENGTH, before + LENGTH, 1);
    same_number("what the conversion left", nfs3_check(target, LENGTH), 0);
    make_old();
    not_converted("a target of one byte less", OLD_LENGTH, LENGTH - 1, 6);
    not_converted("a target of one byte more", OLD_LENGTH, LENGTH + 1, 6);
    not_converted("a target of the old length", OLD_LENGTH, OLD_LENGTH, 6);
    not_converted("no target", OLD_LENGTH, 0, 6);
    for (size_t len = 0; len < OLD_LENGTH; len++)
        same_answer("an old store that is cut", nfs3_convert(old, len, target, LENGTH), NFS3_BAD_STORE, 0);
    not_converted("an old store that is cut, anywhere", OLD_LENGTH - 1, LENGTH, 1);
    not_converted("an old store of one byte more", OLD_LENGTH + 1, LENGTH + 1, 1);
    old_changed("an old store with another volume count", 3, 2);
    old_changed("an old store with another count of objects", 11, 4);
    old_changed("an old store whose root is a file", 15, 1);
    old_changed("an old store with mode 8,191", 12 + OLD_RECORD + 10, 0x1F);
    old_changed("an old store with a block twice", 12 + OLD_RECORD * 2 + 51, 1);
    old_changed("an old store with a slash", 16 + OLD_RECORD * 3 + 12, 0x2F);
    old_changed("an old store with a directory named twice", 16 + OLD_RECORD * 3 + 44 + 7, 1);
    old[15] = 1;
    not_converted("both faults", OLD_LENGTH, 0, 1);
    make_old();
    same_number("a store in the converter", nfs3_convert(store, LENGTH, target, LENGTH), 1);

    static uint8_t smallest_old[100], made[112];
    memcpy(smallest_old, smallest, 92);
    same_number("the smallest", nfs3_convert(smallest_old, 100, made, NFS3_CONVERTED_LENGTH(100, 1)), 0);
    same_bytes("the smallest", made, smallest, 112);
}

/* Converts the store in which the file has so many further names. */
static void convert_links(const char *what, size_t further, uint32_t number) {
    static uint8_t old_links[NFS3_OLD_STORE_LENGTH(3, 18, 2)], made[LINKS_LENGTH], made_before[LINKS_LENGTH];
    make_links(further);
    put_old(old_links, with_links, LINKS_LENGTH);
    memset(made, 0xA5, sizeof made);
    memcpy(made_before, made, sizeof made);
    same_number(what, nfs3_convert(old_links, sizeof old_links, made, sizeof made), number);
    same_bytes(what, made, number == NFS3_DONE ? with_links : made_before, sizeof made);
}

static void link_conversions(void) {
    convert_links("an old store whose file has one name", 0, 0);
    convert_links("an old store whose file has two names", 1, 1);
    convert_links("an old store whose file has 16 names", 15, 1);
}

/*
 * Bytes that are good in both layouts, as no store is that was made by format and calls: object 20 was removed, though no object before it was
 * ever made. Its type and generation stand where the old layout has the counts of names, 0, and of blocks, 2.
 */
static void both_layouts(void) {
    enum { BOTH = NFS3_STORE_LENGTH(23, 17, 0), MADE = NFS3_CONVERTED_LENGTH(BOTH, 23) };
    static uint8_t both[BOTH], made[MADE];
    same_answer("format of 23 objects", nfs3_format(both, BOTH, 9, 23, 17, 0, 0, 0), NFS3_DONE, 0);
    same_number("a new store of 23 objects in the converter", nfs3_convert(both, BOTH, made, MADE), 1);
    both[12 + RECORD * 20 + 7] = 2;
    same_number("bytes of both layouts in the check", nfs3_check(both, BOTH), 0);
    same_number("bytes of both layouts in the converter", nfs3_convert(both, BOTH, made, MADE), 0);
    same_number("what the conversion left", nfs3_check(made, MADE), 0);
}

/* A mount table, a call of DUMP (xid 7, RPC version 2, program 100005, version 3, procedure 2), and a reply space; each with a byte more. */
static uint8_t table[MOUNT3_TABLE_LENGTH + 1], reply[MOUNT3_REPLY_SPACE + 1];
static uint8_t dump[NFS3_CALL_MOST + 1] = { 0, 0, 0, 7, 0, 0, 0, 0, 0, 0, 0, 2, 0, 1, 0x86, 0xA5, 0, 0, 0, 3, 0, 0, 0, 2 };
enum { DUMP_LENGTH = 40, EMPTY_DUMP = 28 };

/* A row of the table: the host 127.0.0.HOST, and a path of so many slashes. */
static void put_row(size_t row, uint8_t host, uint32_t len) {
    uint8_t *at = table + MOUNT3_ROW_LENGTH * row;
    memset(at, 0, MOUNT3_ROW_LENGTH);
    at[0] = 127;
    at[3] = host;
    at[6] = (uint8_t)(len >> 8);
    at[7] = (uint8_t)len;
    memset(at + 8, '/', len);
}

/* Lends so many bytes of each. Where the number is not NFS3_DONE, no byte changes. */
static void lend(const char *what, size_t call_len, size_t store_len, size_t table_len, size_t reply_len, uint32_t number, size_t length) {
    static uint8_t table_before[sizeof table], reply_before[sizeof reply];
    memset(reply, 0x5A, sizeof reply);
    memcpy(table_before, table, sizeof table);
    memcpy(reply_before, reply, sizeof reply);
    struct nfs3_answer a = mount3_call(dump, call_len, smallest, store_len, table, table_len, reply, reply_len, 0x7F000001);
    steps++;
    printf("answer %-2u %s\n", (unsigned)a.number, what);
    same_answer(what, a, number, length);
    same_bytes(what, table, table_before, sizeof table);
    same_bytes(what, reply + length, reply_before + length, sizeof reply - length);
}

/* The table as it is: good, with a reply of this length, or bad, where that is 0. */
static void table_is(const char *what, size_t length) {
    lend(what, DUMP_LENGTH, sizeof smallest, MOUNT3_TABLE_LENGTH, MOUNT3_REPLY_SPACE, length == 0 ? MOUNT3_BAD_TABLE : NFS3_DONE, length);
}

/* A table with two rows, of which one byte is changed. */
static void table_changed(const char *what, size_t at, uint8_t byte, size_t length) {
    memset(table, 0, sizeof table);
    put_row(0, 1, 1);
    put_row(2, 2, 1);
    table[at] = byte;
    table_is(what, length);
}

/* A call to a program that the function does not serve: the reply says PROG_UNAVAIL. */
static void is_unavailable(const char *what, struct nfs3_answer a) {
    static const uint8_t unavailable[24] = { [3] = 7, [7] = 1, [23] = 1 };
    steps++;
    printf("answer %-2u %s\n", (unsigned)a.number, what);
    same_answer(what, a, NFS3_DONE, sizeof unavailable);
    same_bytes(what, reply, unavailable, sizeof unavailable);
}

static void mounts(void) {
    lend("all faults of a MOUNT call", NFS3_CALL_MOST + 1, 111, MOUNT3_TABLE_LENGTH - 1, MOUNT3_REPLY_SPACE - 1, 2, 0);
    lend("all but the reply space", NFS3_CALL_MOST + 1, 111, MOUNT3_TABLE_LENGTH - 1, MOUNT3_REPLY_SPACE, 4, 0);
    lend("a header that is cut, store and table", DUMP_LENGTH - 1, 111, MOUNT3_TABLE_LENGTH - 1, MOUNT3_REPLY_SPACE, 1, 0);
    lend("a header that is cut, and the table", DUMP_LENGTH - 1, 112, MOUNT3_TABLE_LENGTH - 1, MOUNT3_REPLY_SPACE, 12, 0);
    lend("a table of one byte more", DUMP_LENGTH, 112, MOUNT3_TABLE_LENGTH + 1, MOUNT3_REPLY_SPACE, 12, 0);
    lend("a reply space of one byte more", DUMP_LENGTH, 112, MOUNT3_TABLE_LENGTH, MOUNT3_REPLY_SPACE + 1, 0, EMPTY_DUMP);
    for (size_t len = 0; len < MOUNT3_TABLE_LENGTH; len += 43)
        same_answer("a shorter table", mount3_call(dump, DUMP_LENGTH, smallest, 112, table, len, reply, MOUNT3_REPLY_SPACE, 0), MOUNT3_BAD_TABLE, 0);
    table_is("an empty table", EMPTY_DUMP);

    enum { TWO_ROWS = EMPTY_DUMP + 2 * 28, THIRD_ROW = 2 * MOUNT3_ROW_LENGTH };
    table_changed("two rows, and a free one between them", 0, 127, TWO_ROWS);
    table_changed("one pair twice", THIRD_ROW + 3, 1, 0);
    table_changed("a free row with a host", MOUNT3_ROW_LENGTH, 1, 0);
    table_changed("a free row with a path", MOUNT3_ROW_LENGTH + 8, '/', 0);
    table_changed("the last byte of a free row", MOUNT3_TABLE_LENGTH - 1, 1, 0);
    table_changed("a row that has lost its length", 7, 0, 0);
    table_changed("a path without a slash", THIRD_ROW + 8, '.', 0);
    table_changed("a path that ends with a zero byte", THIRD_ROW + 7, 2, TWO_ROWS);
    table_changed("a byte behind a path", THIRD_ROW + 9, '/', 0);
    table_changed("a byte at the end of a row", THIRD_ROW + MOUNT3_ROW_LENGTH - 1, 1, 0);
    table_changed("a path of 1,025 bytes", THIRD_ROW + 6, 4, 0);
    table_changed("a path of 16,777,217 bytes", THIRD_ROW + 4, 1, 0);

    for (size_t row = 0; row < MOUNT3_ROWS; row++) {
        put_row(row, (uint8_t)(100 + row), MOUNT3_PATH_MOST);
        table[MOUNT3_ROW_LENGTH * row + 1] = table[MOUNT3_ROW_LENGTH * row + 2] = 255; /* hosts of 15 characters */
    }
    table_is("a full table with the longest hosts and paths", MOUNT3_REPLY_SPACE);

    make_store();
    is_unavailable("a MOUNT call in nfs3_call", nfs3_call(dump, DUMP_LENGTH, store, LENGTH, reply, sizeof reply, 0, 0, 0));
    dump[15] = 0xA3; /* program 100003 */
    is_unavailable("an NFS call in mount3_call",
                   mount3_call(dump, DUMP_LENGTH, store, LENGTH, table, MOUNT3_TABLE_LENGTH, reply, MOUNT3_REPLY_SPACE, 0x7F000001));
}

/* ---- Calls that cannot be read: where each broke (struct nfs3_answer) ---- */

/* A message, of which the first bytes are lent, and the program that it calls. */
static uint8_t message[NFS3_CALL_MOST];
static size_t message_len;
static uint32_t called;

static void put_word(uint32_t word) {
    for (int i = 0; i < 4; i++)
        message[message_len++] = (uint8_t)(word >> (24 - 8 * i));
}

static void put_words(const uint32_t *words, size_t count) {
    for (size_t i = 0; i < count; i++)
        put_word(words[i]);
}

/* So many bytes, whatever they are. */
static void put_bytes(size_t len) {
    memset(message + message_len, 0xEE, len);
    message_len += len;
}

/* Opaque data of so many bytes, padded. */
static void put_opaque(uint32_t len) {
    put_word(len);
    put_bytes((len + 3) / 4 * 4);
}

/* The header of a call, field by field: where each starts that has a name. */
enum { RPC = 8, PROGRAM = 12, VERSION = 16, PROCEDURE = 20, FLAVOR = 24, CREDENTIAL = 28, VERIFIER_FLAVOR = 40, VERIFIER_LENGTH = 44, ARGUMENTS = 52 };

/* A call of a procedure up to its arguments: xid 7, a credential of 5 bytes, and a verifier of 3. */
static void begin(uint32_t program, uint32_t procedure) {
    called = program;
    message_len = 0;
    put_words((uint32_t[]){ 7, 0, 2, program, 3, procedure, 1 }, 7);
    put_opaque(5);
    put_word(0);
    put_opaque(3);
}

/* The same, with a handle: that of the root. What follows it starts at AFTER_HANDLE. */
enum { AFTER_HANDLE = ARGUMENTS + 16 };

static void begin_on_root(uint32_t procedure) {
    begin(NFS3_PROGRAM, procedure);
    put_words((uint32_t[]){ NFS3_HANDLE_LENGTH, 9, 0, 0 }, 4);
}

/* The lent buffers as they were before a call. */
static struct {
    uint8_t message[sizeof message], store[sizeof store], table[sizeof table], reply[sizeof reply];
} lent;

/*
 * Lends the message and a reply space of so many bytes to the function of a program, and compares the answer, the reply that is wanted, and every other
 * byte of every buffer with what it was.
 */
static struct nfs3_answer answered(const char *what, uint32_t program, size_t space, uint32_t number, uint32_t offset, const uint8_t *wanted,
                                   size_t len) {
    struct nfs3_answer a;
    memset(reply, 0x5A, sizeof reply);
    memcpy(lent.message, message, sizeof message);
    memcpy(lent.store, store, sizeof store);
    memcpy(lent.table, table, sizeof table);
    memcpy(lent.reply, reply, sizeof reply);
    if (program == MOUNT3_PROGRAM)
        a = mount3_call(message, message_len, store, LENGTH, table, MOUNT3_TABLE_LENGTH, reply, space, 0x7F000001);
    else
        a = nfs3_call(message, message_len, store, LENGTH, reply, space, 0, 0, 0);
    steps++;
    same_answer_at(what, a, number, len, offset);
    same_bytes(what, reply, wanted, len);
    same_bytes(what, reply + len, lent.reply + len, sizeof reply - len);
    same_bytes(what, message, lent.message, sizeof message);
    same_bytes(what, store, lent.store, sizeof store);
    same_bytes(what, table, lent.table, sizeof table);
    return a;
}

static void tell(const char *what, struct nfs3_answer a) {
    printf("answer %-2u offset %-3u %s\n", (unsigned)a.number, (unsigned)a.offset, what);
}

/* The message is refused by both functions, whichever program it calls. */
static struct nfs3_answer refused(const char *what, uint32_t number, uint32_t offset) {
    answered(what, NFS3_PROGRAM, sizeof reply, number, offset, NULL, 0);
    return answered(what, MOUNT3_PROGRAM, sizeof reply, number, offset, NULL, 0);
}

static void tell_refused(const char *what, uint32_t number, uint32_t offset) {
    tell(what, refused(what, number, offset));
}

/* The message is refused, wherever it is cut between two places. */
static void tell_cut(const char *what, size_t start, size_t end, uint32_t number, uint32_t offset) {
    for (message_len = start; message_len + 1 < end; message_len++)
        refused(what, number, offset);
    tell_refused(what, number, offset);
}

/* The message is answered by both functions with a reply that denies it: it has another RPC version. */
static void denied(const char *what) {
    static const uint8_t wanted[24] = { [3] = 7, [7] = 1, [11] = 1, [19] = 2, [23] = 2 };
    answered(what, NFS3_PROGRAM, sizeof reply, NFS3_DONE, 0, wanted, sizeof wanted);
    tell(what, answered(what, MOUNT3_PROGRAM, sizeof reply, NFS3_DONE, 0, wanted, sizeof wanted));
}

/* The message is answered by the function of its program with this status of RPC, and nothing behind it. */
enum { SUCCESS = 0, PROC_UNAVAIL = 3, GARBAGE_ARGS = 4 };

static void replied(const char *what, uint8_t status, uint32_t offset) {
    uint8_t wanted[24] = { [3] = 7, [7] = 1, [23] = status };
    tell(what, answered(what, called, sizeof reply, NFS3_DONE, offset, wanted, sizeof wanted));
}

static void garbage(const char *what, uint32_t offset) {
    replied(what, GARBAGE_ARGS, offset);
}

/* Messages whose header cannot be read, and some whose header can. */
static void headers(void) {
    make_store();
    memset(table, 0, sizeof table);
    begin(NFS3_PROGRAM, 0);
    tell_cut("under 8 bytes", 0, RPC, NFS3_SHORT_MESSAGE, 0);
    tell_cut("cut in the RPC version", RPC, PROGRAM, NFS3_CUT_HEADER, RPC);
    tell_cut("cut in the program", PROGRAM, VERSION, NFS3_CUT_HEADER, PROGRAM);
    tell_cut("cut in the version", VERSION, PROCEDURE, NFS3_CUT_HEADER, VERSION);
    tell_cut("cut in the procedure", PROCEDURE, FLAVOR, NFS3_CUT_HEADER, PROCEDURE);
    tell_cut("cut in the flavor of the credential", FLAVOR, CREDENTIAL, NFS3_CUT_HEADER, FLAVOR);
    tell_cut("cut in the credential: length, body or padding", CREDENTIAL, VERIFIER_FLAVOR, NFS3_CUT_HEADER, CREDENTIAL);
    tell_cut("cut in the flavor of the verifier", VERIFIER_FLAVOR, VERIFIER_LENGTH, NFS3_CUT_HEADER, VERIFIER_FLAVOR);
    tell_cut("cut in the verifier: length, body or padding", VERIFIER_LENGTH, ARGUMENTS, NFS3_CUT_HEADER, VERIFIER_LENGTH);
    message_len = ARGUMENTS;
    replied("a whole header, of NULL", SUCCESS, 0);

    message[7] = 1;
    tell_refused("a REPLY", NFS3_OTHER_MESSAGE, 0);
    message_len = RPC;
    tell_refused("a REPLY of 8 bytes", NFS3_OTHER_MESSAGE, 0);
    message_len = RPC - 1;
    tell_refused("a REPLY of 7 bytes", NFS3_SHORT_MESSAGE, 0);
    begin(NFS3_PROGRAM, 0);
    message[4] = 0x80;
    tell_refused("message type 2,147,483,648", NFS3_OTHER_MESSAGE, 0);

    begin(NFS3_PROGRAM, 0);
    message_len = CREDENTIAL;
    put_opaque(NFS3_CREDENTIAL_MOST + 1);
    put_words((uint32_t[]){ 0, 0 }, 2);
    tell_refused("a credential of 401 bytes", NFS3_LONG_CREDENTIAL, CREDENTIAL);
    message_len = CREDENTIAL + 4;
    tell_refused("a credential of 401 bytes, cut", NFS3_LONG_CREDENTIAL, CREDENTIAL);
    message_len = CREDENTIAL + 3;
    tell_refused("a credential of 401 bytes, cut in its length", NFS3_CUT_HEADER, CREDENTIAL);
    message_len = CREDENTIAL;
    put_opaque(NFS3_CREDENTIAL_MOST);
    put_words((uint32_t[]){ 0, NFS3_CREDENTIAL_MOST + 1 }, 2);
    tell_refused("a credential of 400 bytes, and a verifier of 401, cut", NFS3_LONG_CREDENTIAL, CREDENTIAL + 4 + NFS3_CREDENTIAL_MOST + 4);
    message_len -= 4;
    put_opaque(NFS3_CREDENTIAL_MOST);
    replied("a credential and a verifier of 400 bytes", SUCCESS, 0);
    message_len--;
    tell_refused("the same, cut by a byte", NFS3_CUT_HEADER, CREDENTIAL + 4 + NFS3_CREDENTIAL_MOST + 4);
    begin(NFS3_PROGRAM, 0);
    message_len = VERIFIER_LENGTH;
    put_word(0xFFFFFFFF);
    tell_refused("a verifier of 4,294,967,295 bytes", NFS3_LONG_CREDENTIAL, VERIFIER_LENGTH);
    message_len = CREDENTIAL;
    put_words((uint32_t[]){ 401, 0, 401 }, 3);
    tell_refused("both too long: the first decides", NFS3_LONG_CREDENTIAL, CREDENTIAL);

    begin(NFS3_PROGRAM, 0);
    message[RPC + 3] = 3;
    message_len = PROGRAM;
    denied("RPC version 3, and nothing behind it");

    begin(NFS3_PROGRAM, 0);
    message_len = CREDENTIAL;
    answered("a cut header, and a small reply space", NFS3_PROGRAM, NFS3_REPLY_SPACE - 1, NFS3_SMALL_REPLY, 0, NULL, 0);
    answered("a cut header, and a small reply space", MOUNT3_PROGRAM, MOUNT3_REPLY_SPACE - 1, NFS3_SMALL_REPLY, 0, NULL, 0);
    store[3] = 2;
    tell_refused("a cut header, and a bad store", NFS3_BAD_STORE, 0);
    store[3] = 1;
}

enum { NULL_PROCEDURE = 0, GETATTR = 1, SETATTR = 2, LOOKUP = 3, WRITE = 7, CREATE = 8, RENAME = 14, LINK = 15, MNT = 1, DUMP = 2, UMNT = 3 };

/* Calls of NFS whose arguments cannot be read. */
static void arguments(void) {
    begin(NFS3_PROGRAM, NULL_PROCEDURE);
    put_bytes(1);
    garbage("NULL, with a byte left over", ARGUMENTS);
    begin(NFS3_PROGRAM, 22);
    put_bytes(1);
    replied("procedure 22, with a byte left over", PROC_UNAVAIL, 0);
    begin(NFS3_PROGRAM, GETATTR);
    garbage("GETATTR without a handle", ARGUMENTS);
    put_opaque(NFS3_HANDLE_MOST + 1);
    garbage("GETATTR, a handle of 65 bytes", ARGUMENTS);
    begin_on_root(GETATTR);
    message_len--;
    garbage("GETATTR, a handle that is cut", ARGUMENTS);
    begin_on_root(GETATTR);
    put_bytes(4);
    garbage("GETATTR, with 4 bytes left over", AFTER_HANDLE);

    begin_on_root(LOOKUP);
    put_opaque(5);
    message_len -= 4;
    garbage("LOOKUP, a name that is cut", AFTER_HANDLE);
    begin_on_root(LOOKUP);
    put_opaque(5);
    message_len--;
    garbage("LOOKUP, a name whose padding is cut", AFTER_HANDLE);
    begin_on_root(LOOKUP);
    put_word(0xFFFFFFFF);
    garbage("LOOKUP, a name of 4,294,967,295 bytes", AFTER_HANDLE);

    enum { OFFSET = AFTER_HANDLE, COUNT = OFFSET + 8, STABLE = COUNT + 4, DATA = STABLE + 4, DATA_BYTES = DATA + 4 };
    begin_on_root(WRITE);
    put_words((uint32_t[]){ 0, 0, 3, 2, 3, 0xEEEEEEEE }, 6);
    put_bytes(1);
    garbage("WRITE, with a byte left over", DATA_BYTES + 4);
    message_len = DATA_BYTES + 3;
    garbage("WRITE, data whose padding is cut", DATA);
    message_len = DATA;
    garbage("WRITE without data", DATA);
    message[STABLE + 3] = 3;
    garbage("WRITE, stable of 3", STABLE);
    message_len = COUNT + 1;
    garbage("WRITE, cut in its count", COUNT);
    message_len = OFFSET + 7;
    garbage("WRITE, cut in its offset", OFFSET);

    enum { MODE = AFTER_HANDLE, ATIME = MODE + 16, ATIME_NANOSECONDS = ATIME + 8 };
    begin_on_root(SETATTR);
    put_words((uint32_t[]){ 0, 0, 0, 0, 2, 1000, 1 }, 7);
    message_len--;
    garbage("SETATTR, cut in the nanoseconds of a time", ATIME_NANOSECONDS);
    message[ATIME + 3] = 3;
    garbage("SETATTR, a time of manner 3", ATIME);
    message[MODE + 3] = 2;
    garbage("SETATTR, a boolean of 2", MODE);

    begin_on_root(CREATE);
    put_opaque(1);
    put_word(2);
    put_bytes(7);
    garbage("CREATE, EXCLUSIVE with a verifier of 7 bytes", AFTER_HANDLE + 12);
    begin_on_root(RENAME);
    put_opaque(1);
    put_words((uint32_t[]){ NFS3_HANDLE_LENGTH, 9, 0, 0, 2 }, 5);
    put_bytes(2);
    garbage("RENAME, the second name's padding is not there", AFTER_HANDLE + 8 + 16);

    enum { NAME = AFTER_HANDLE + 16 };
    begin_on_root(LINK);
    garbage("LINK without a directory", AFTER_HANDLE);
    put_opaque(NFS3_HANDLE_MOST + 1);
    garbage("LINK, a directory's handle of 65 bytes", AFTER_HANDLE);
    begin_on_root(LINK);
    put_words((uint32_t[]){ NFS3_HANDLE_LENGTH, 9, 0, 0 }, 4);
    garbage("LINK without a name", NAME);
    put_opaque(5);
    message_len--;
    garbage("LINK, a name whose padding is cut", NAME);
    message_len++;
    put_bytes(1);
    garbage("LINK, with a byte left over", NAME + 12);
}

/* Calls of MOUNT whose arguments cannot be read. */
static void mount_arguments(void) {
    begin(MOUNT3_PROGRAM, NULL_PROCEDURE);
    put_bytes(1);
    garbage("NULL of MOUNT, with a byte left over", ARGUMENTS);
    begin(MOUNT3_PROGRAM, DUMP);
    put_bytes(4);
    garbage("DUMP, with 4 bytes left over", ARGUMENTS);
    begin(MOUNT3_PROGRAM, MNT);
    garbage("MNT without a path", ARGUMENTS);
    put_opaque(MOUNT3_PATH_MOST + 1);
    garbage("MNT, a path of 1,025 bytes", ARGUMENTS);
    begin(MOUNT3_PROGRAM, MNT);
    put_opaque(MOUNT3_PATH_MOST);
    message_len--;
    garbage("MNT, a path of 1,024 bytes that is cut", ARGUMENTS);
    begin(MOUNT3_PROGRAM, MNT);
    put_opaque(1);
    put_bytes(1);
    garbage("MNT, with a byte left over", ARGUMENTS + 8);
    begin(MOUNT3_PROGRAM, UMNT);
    put_opaque(MOUNT3_PATH_MOST + 1);
    garbage("UMNT, a path of 1,025 bytes", ARGUMENTS);
    begin(MOUNT3_PROGRAM, 6);
    put_bytes(1);
    replied("procedure 6 of MOUNT, with a byte left over", PROC_UNAVAIL, 0);
}

int main(void) {
    formats();
    checks();
    cycle();
    names();
    links();
    most_names();
    conversions();
    link_conversions();
    both_layouts();
    mounts();
    headers();
    arguments();
    mount_arguments();
    return end("check", steps);
}
