/*
 * Measures the stack that the libraries use, and compares the greatest with NFS3_STACK, NFS3_CONVERT_STACK and MOUNT3_STACK: stack VECTORS.. Exits 1
 * where one of these is less than twice what was measured. What is run: every format, check, call, conversion and call of MOUNT of the vector files
 * (peer/README.md has their layout; the searches in them are left out), a conversion of the largest store, and calls of MOUNT on it: paths of every
 * depth, a table that is filled, listed and emptied, and damaged ones.
 *
 * Each function runs alone on a stack of its own that was filled with one byte before; the lowest byte that differs afterwards tells how far it
 * went. What is counted has the frame of `run` here in it, and in the first call what the dynamic linker needs to find memset.
 */
#define _XOPEN_SOURCE 700
#include "mount3.h"
#include "nfs3.h"

#include <stdio.h>
#include <stdlib.h>
#include <string.h>
#include <ucontext.h>

enum { FILL = 0xC3, STACK = 1 << 18, SPACE_MOST = 65536 };

/* The tags of a vector file: numbers, bytes of buffers, runs, entries. */
enum { STORE_LENGTH, CALL_LENGTH, REPLY_LENGTH, PLACE, SECONDS, NANOSECONDS, VERIFIER_HIGH, VERIFIER_LOW, STAMP, OBJECTS, NAMES, BLOCKS, OLD_LENGTH };
enum { TABLE_LENGTH = 14, HOST = 15 };
enum { STORE_BYTES = 128, CALL_BYTES = 129, REPLY_BYTES = 130, OLD_BYTES = 131, TEXT = 132, TABLE_BYTES = 133, RUN = 192, END = 193, CLEAR_TABLE = 195 };
enum { FORMAT = 224, CHECK = 225, CALL = 226, CONVERT = 227, MOUNT = 229, TAGS = 256 };

static uint8_t stack[STACK], store[NFS3_STORE_MOST + 1024], old[NFS3_OLD_STORE_MOST + 1024];
static uint8_t call[SPACE_MOST], reply[SPACE_MOST], wanted[SPACE_MOST], table[SPACE_MOST];
static struct nfs3_answer answer; /* of the last call of MOUNT */
static uint32_t number[TAGS];
static size_t most[TAGS], count[TAGS];
static int entry;
static ucontext_t here, there;

static void fail(const char *why) {
    fprintf(stderr, "stack: %s\n", why);
    exit(1);
}

static void take(FILE *file, uint8_t *bytes, size_t place, size_t len, size_t most) {
    if (place > most || len > most - place || fread(bytes + place, 1, len, file) != len)
        fail("a vector file is not as its layout says");
}

/* What runs on the stack that is measured. */
static void run(void) {
    size_t store_len = number[STORE_LENGTH];
    if (entry == FORMAT)
        nfs3_format(store, store_len, number[STAMP], number[OBJECTS], number[NAMES], number[BLOCKS], number[SECONDS], number[NANOSECONDS]);
    else if (entry == CHECK)
        nfs3_check(store, store_len);
    else if (entry == CONVERT)
        nfs3_convert(old, number[OLD_LENGTH], store, store_len);
    else if (entry == MOUNT)
        answer = mount3_call(call, number[CALL_LENGTH], store, store_len, table, number[TABLE_LENGTH], reply, number[REPLY_LENGTH], number[HOST]);
    else
        nfs3_call(call, number[CALL_LENGTH], store, store_len, reply, number[REPLY_LENGTH], number[SECONDS], number[NANOSECONDS],
                  (uint64_t)number[VERIFIER_HIGH] << 32 | number[VERIFIER_LOW]);
}

static void measure(void) {
    if (number[STORE_LENGTH] > sizeof store || number[CALL_LENGTH] > sizeof call || number[REPLY_LENGTH] > sizeof reply ||
        number[OLD_LENGTH] > sizeof old || number[TABLE_LENGTH] > sizeof table)
        fail("a buffer is too long");
    memset(stack, FILL, sizeof stack);
    if (getcontext(&there) != 0)
        fail("getcontext");
    there.uc_stack.ss_sp = stack;
    there.uc_stack.ss_size = sizeof stack;
    there.uc_link = &here;
    makecontext(&there, run, 0);
    if (swapcontext(&here, &there) != 0)
        fail("swapcontext");
    size_t untouched = 0;
    while (untouched < sizeof stack && stack[untouched] == FILL)
        untouched++;
    count[entry]++;
    if (sizeof stack - untouched > most[entry])
        most[entry] = sizeof stack - untouched;
}

/* The largest store, made in the old layout: format writes the same bytes there, but for those behind each record. */
static void measure_conversion(void) {
    static const uint32_t objects = NFS3_OBJECTS_MOST;
    struct nfs3_answer a = nfs3_format(store, NFS3_STORE_MOST, 1, objects, NFS3_NAMES_MOST, NFS3_BLOCKS_MOST, 0, 0);
    size_t head = NFS3_STORE_LENGTH(0, 0, 0) - 8, from = head + NFS3_OBJECT_LENGTH * objects, to = head + NFS3_OLD_OBJECT_LENGTH * objects;
    memcpy(old, store, head);
    for (uint32_t o = 0; o < objects; o++)
        memcpy(old + head + NFS3_OLD_OBJECT_LENGTH * o, store + head + NFS3_OBJECT_LENGTH * o, NFS3_OLD_OBJECT_LENGTH);
    memcpy(old + to, store + from, NFS3_STORE_MOST - from);
    number[OLD_LENGTH] = (uint32_t)NFS3_OLD_STORE_MOST;
    number[STORE_LENGTH] = (uint32_t)NFS3_STORE_MOST;
    entry = CONVERT;
    measure();
    if (a.number != NFS3_DONE || nfs3_convert(old, NFS3_OLD_STORE_MOST, store, NFS3_STORE_MOST).number != NFS3_DONE)
        fail("the largest store is not converted");
}

/* Measures a call of MOUNT with a path, where that is not null, and gives the length of its reply. */
static uint32_t mount(uint8_t procedure, const uint8_t *path, size_t len) {
    static const uint8_t head[40] = { [11] = 2, [13] = 1, [14] = 0x86, [15] = 0xA5, [19] = 3 }; /* RPC version 2, program 100005, version 3 */
    memset(call, 0, sizeof call);
    memcpy(call, head, sizeof head);
    call[23] = procedure;
    number[CALL_LENGTH] = sizeof head;
    if (path != NULL) {
        call[42] = (uint8_t)(len >> 8);
        call[43] = (uint8_t)len;
        memcpy(call + 44, path, len);
        number[CALL_LENGTH] = (uint32_t)(44 + (len + 3) / 4 * 4);
    }
    entry = MOUNT;
    measure();
    return answer.length;
}

/* Makes an object, a directory in the one before it, with a name of the greatest length. Adds the name to a path, and gives the path's length. */
static size_t make_directory(uint32_t object, uint8_t *path, size_t len) {
    uint8_t message[116] = { [11] = 2, [13] = 1, [14] = 0x86, [15] = 0xA3, [19] = 3, [23] = 9, [43] = 12, [47] = 1, [59] = NFS3_NAME_MOST };
    message[51] = (uint8_t)(object - 1);
    memset(message + 60, '0' + (int)(object % 10), NFS3_NAME_MOST); /* then zero bytes: no attribute is set */
    struct nfs3_answer a = nfs3_call(message, sizeof message, store, NFS3_STORE_MOST, reply, sizeof reply, 0, 0, 0);
    if (a.number != NFS3_DONE || a.length != 252)
        fail("a directory is not made");
    path[len] = '/';
    memcpy(path + len + 1, message + 60, NFS3_NAME_MOST);
    return len + 1 + NFS3_NAME_MOST;
}

/* In the largest store, directories within each other, and paths to each of them; then full and damaged tables. */
static void measure_mounts(void) {
    enum { MNT = 1, DUMP = 2, UMNT = 3, UMNTALL = 4, EXPORT = 5, MOUNTED = 56, LAST_ROW = MOUNT3_TABLE_LENGTH - MOUNT3_ROW_LENGTH };
    static uint8_t path[NFS3_OBJECTS_MOST * (1 + NFS3_NAME_MOST)];
    memset(path, '/', sizeof path);
    memset(table, 0, sizeof table);
    number[STORE_LENGTH] = (uint32_t)NFS3_STORE_MOST;
    number[TABLE_LENGTH] = MOUNT3_TABLE_LENGTH;
    number[REPLY_LENGTH] = MOUNT3_REPLY_SPACE;
    number[HOST] = 0xFFFFFFFF;
    if (nfs3_format(store, NFS3_STORE_MOST, 1, NFS3_OBJECTS_MOST, NFS3_NAMES_MOST, NFS3_BLOCKS_MOST, 0, 0).number != NFS3_DONE)
        fail("format");
    size_t len = 0;
    for (uint32_t object = 1; object < NFS3_OBJECTS_MOST; object++) {
        len = make_directory(object, path, len);
        if (len > MOUNT3_PATH_MOST)
            break;
        if (mount(MNT, path, len) != MOUNTED || mount(UMNT, path, len) != 24)
            fail("a path is not mounted");
    }
    for (uint32_t row = 0; row < MOUNT3_ROWS; row++) { /* a host for each: 255.255.255.224 to 255.255.255.255 */
        number[HOST] = 0xFFFFFFFF - row;
        memset(path, '/', MOUNT3_PATH_MOST);
        if (mount(MNT, path, MOUNT3_PATH_MOST) != MOUNTED || mount(MNT, path, MOUNT3_PATH_MOST) != MOUNTED)
            fail("a path of slashes is not mounted");
    }
    if (mount(MNT, path, 1) != 28 || mount(DUMP, NULL, 0) != MOUNT3_REPLY_SPACE || mount(EXPORT, NULL, 0) != 44 || mount(0, NULL, 0) != 24)
        fail("the table is not full, or not listed");
    static const size_t damaged[] = { 0, 7, 8, MOUNT3_ROW_LENGTH - 1, LAST_ROW + 6, MOUNT3_TABLE_LENGTH - 1 };
    for (size_t i = 0; i < sizeof damaged / sizeof damaged[0]; i++) {
        for (int bit = 0; bit < 8; bit++) {
            table[damaged[i]] ^= (uint8_t)(1 << bit);
            mount(DUMP, NULL, 0);
            mount(MNT, path, MOUNT3_PATH_MOST);
            table[damaged[i]] ^= (uint8_t)(1 << bit);
        }
    }
    for (uint32_t row = 0; row < MOUNT3_ROWS; row++) {
        number[HOST] = 0xFFFFFFFF - row;
        mount(UMNTALL, NULL, 0);
    }
    if (mount(DUMP, NULL, 0) != 28)
        fail("the table is not empty");
}

/* Runs the entries of a vector file. */
static void replay(const char *path) {
    FILE *file = fopen(path, "rb");
    if (file == NULL)
        fail("a vector file is not there");
    memset(number, 0, sizeof number);
    for (;;) {
        uint8_t row[5], text[256];
        take(file, row, 0, sizeof row, sizeof row);
        uint32_t word = (uint32_t)row[1] << 24 | (uint32_t)row[2] << 16 | (uint32_t)row[3] << 8 | row[4];
        entry = row[0];
        if (entry == END)
            break;
        if (entry == STORE_BYTES)
            take(file, store, number[PLACE], word, sizeof store);
        else if (entry == CALL_BYTES)
            take(file, call, number[PLACE], word, sizeof call);
        else if (entry == REPLY_BYTES)
            take(file, wanted, number[PLACE], word, sizeof wanted);
        else if (entry == OLD_BYTES)
            take(file, old, number[PLACE], word, sizeof old);
        else if (entry == TABLE_BYTES)
            take(file, table, number[PLACE], word, sizeof table);
        else if (entry == TEXT)
            take(file, text, 0, word, sizeof text);
        else if (entry == RUN)
            memset(store, 0xA5, sizeof store);
        else if (entry == CLEAR_TABLE)
            memset(table, 0, sizeof table);
        else if (entry == FORMAT || entry == CHECK || entry == CALL || entry == CONVERT || entry == MOUNT)
            measure();
        else
            number[entry] = word;
    }
    fclose(file);
}

/* Fails where nothing was measured, or the bound is not twice as much. */
static void compare(const char *what, int of, size_t bound) {
    if (count[of] == 0 || most[of] * 2 > bound)
        fail(what);
}

int main(int argc, char **argv) {
    if (argc < 2)
        fail("usage: stack VECTORS..");
    for (int i = 1; i < argc; i++)
        replay(argv[i]);
    measure_conversion();
    measure_mounts();
    printf("stack: %zu bytes in %zu formats, %zu in %zu checks, %zu in %zu calls; NFS3_STACK is %d\n", most[FORMAT], count[FORMAT], most[CHECK],
           count[CHECK], most[CALL], count[CALL], NFS3_STACK);
    printf("stack: %zu bytes in %zu conversions; NFS3_CONVERT_STACK is %d\n", most[CONVERT], count[CONVERT], NFS3_CONVERT_STACK);
    printf("stack: %zu bytes in %zu calls of MOUNT; MOUNT3_STACK is %d\n", most[MOUNT], count[MOUNT], MOUNT3_STACK);
    compare("NFS3_STACK is less than twice what a format took, or there was none", FORMAT, NFS3_STACK);
    compare("NFS3_STACK is less than twice what a check took, or there was none", CHECK, NFS3_STACK);
    compare("NFS3_STACK is less than twice what a call took, or there was none", CALL, NFS3_STACK);
    compare("NFS3_CONVERT_STACK is less than twice what a conversion took, or there was none", CONVERT, NFS3_CONVERT_STACK);
    compare("MOUNT3_STACK is less than twice what a call of MOUNT took, or there was none", MOUNT, MOUNT3_STACK);
    return 0;
}
