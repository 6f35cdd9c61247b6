/*
 * The rows of tools/instructions: makes a store, small or full, and then does one operation so many times.
 *
 *     rows small|full OPERATION TIMES
 *
 * EXCLUSIVE is a CREATE that comes again: the last file of the store is made by it. RENAME gives the last file a new name, and the old one again: two
 * calls. LOOKUP finds the last file; in LOOKUP,first and LOOKUP,last the files have names of 32 bytes that differ in the first byte or in the last
 * one only. In LINKS,GETATTR, LINKS,LOOKUP and LINKS,LINK+REMOVE every name record is used: the first files have further names, up to 16 each; they
 * show a file with the most names, find its last name, and remove and make that name. broken,header is a GETATTR that is cut in the length of its
 * verifier, and is refused; broken,WRITE is a WRITE of 512 bytes with one byte left over, and is answered GARBAGE_ARGS. Compiled with MOUNT defined
 * it has the rows of MOUNT too: NULL with an empty mount table and with 32 paths of 1,024 bytes that differ in the last one, MNT of "/" whose pair is
 * there, and DUMP of the 32 paths. Ends with status 1 where a call is answered in another way; all but the broken ones are answered OK.
 */
#ifdef MOUNT
#include "mount3.h"
#else
#include "nfs3.h"
#endif

#include <stdio.h>
#include <stdlib.h>
#include <string.h>

enum { GETATTR = 1, SETATTR = 2, LOOKUP = 3, READ = 6, WRITE = 7, CREATE = 8, REMOVE = 12, RENAME = 14, LINK = 15, READDIR = 16, FSSTAT = 18 };
enum { STAMP = 7 };

static uint8_t store[NFS3_STORE_MOST], old[NFS3_OLD_STORE_MOST], made[NFS3_STORE_MOST], reply[NFS3_REPLY_SPACE], call[NFS3_CALL_MOST];
static size_t store_len, old_len, len;
static unsigned wrong;

static void word(uint32_t x) {
    for (int i = 0; i < 4; i++)
        call[len++] = (uint8_t)(x >> (24 - 8 * i));
}

static void words(const uint32_t *xs, size_t count) {
    for (size_t i = 0; i < count; i++)
        word(xs[i]);
}

static void opaque(const void *bytes, size_t n) {
    word((uint32_t)n);
    memset(call + len, 0, n + 3);
    memcpy(call + len, bytes, n);
    len += (n + 3) / 4 * 4;
}

/* A call of a procedure on the object, whose generation is 0. */
static void begin(uint32_t procedure, uint32_t object) {
    len = 0;
    words((uint32_t[]){ 9, 0, 2, NFS3_PROGRAM, NFS3_VERSION, procedure, 0, 0, 0, 0 }, 10);
    words((uint32_t[]){ NFS3_HANDLE_LENGTH, STAMP, object, 0 }, 4);
}

static void end(void) {
    struct nfs3_answer a = nfs3_call(call, len, store, store_len, reply, sizeof reply, 1, 1, 1);
    wrong |= a.number | reply[24] | reply[25] | reply[26] | reply[27];
}

/* A call that is refused, by whatever number. */
static void end_refused(void) {
    struct nfs3_answer a = nfs3_call(call, len, store, store_len, reply, sizeof reply, 1, 1, 1);
    wrong |= a.number == NFS3_DONE || a.length != 0;
}

/* A call that is answered GARBAGE_ARGS. */
static void end_garbage(void) {
    struct nfs3_answer a = nfs3_call(call, len, store, store_len, reply, sizeof reply, 1, 1, 1);
    wrong |= a.number != NFS3_DONE || a.length != 24 || reply[23] != 4;
}

static void create(const char *name) {
    begin(CREATE, 0);
    opaque(name, strlen(name));
    words((uint32_t[]){ 0, 0, 0, 0, 0, 0, 0 }, 7);
    end();
}

static void create_exclusive(const char *name) {
    begin(CREATE, 0);
    opaque(name, strlen(name));
    words((uint32_t[]){ 2, 0x01234567, 0x89ABCDEF }, 3);
    end();
}

static void remove_name(const char *name) {
    begin(REMOVE, 0);
    opaque(name, strlen(name));
    end();
}

static void rename_to(const char *name, const char *title) {
    begin(RENAME, 0);
    opaque(name, strlen(name));
    words((uint32_t[]){ NFS3_HANDLE_LENGTH, STAMP, 0, 0 }, 4);
    opaque(title, strlen(title));
    end();
}

static void link_to(uint32_t object, const char *name) {
    begin(LINK, object);
    words((uint32_t[]){ NFS3_HANDLE_LENGTH, STAMP, 0, 0 }, 4);
    opaque(name, strlen(name));
    end();
}

static void look_up(const char *name) {
    begin(LOOKUP, 0);
    opaque(name, strlen(name));
    end();
}

static void begin_write(uint32_t object, uint32_t offset, uint32_t count) {
    static uint8_t bytes[NFS3_DATA_MOST];
    begin(WRITE, object);
    words((uint32_t[]){ 0, offset, count, 2 }, 4);
    opaque(bytes, count);
}

static void write_bytes(uint32_t object, uint32_t offset, uint32_t count) {
    begin_write(object, offset, count);
    end();
}

/* The store in the old layout: without the last 12 bytes of each object, which are zero. */
static void make_old(uint32_t objects) {
    size_t head = NFS3_OBJECT_COUNT_OFFSET + NFS3_OBJECT_COUNT_LENGTH, behind = head + NFS3_OBJECT_LENGTH * objects;
    memcpy(old, store, old_len = head);
    for (uint32_t o = 0; o < objects; o++, old_len += NFS3_OLD_OBJECT_LENGTH)
        memcpy(old + old_len, store + head + NFS3_OBJECT_LENGTH * o, NFS3_OLD_OBJECT_LENGTH);
    memcpy(old + old_len, store + behind, store_len - behind);
    old_len += store_len - behind;
}

/* The name of a file of the store: file-number- and its number, or as LOOKUP,first and LOOKUP,last have it. */
static void name_file(char *name, const char *operation, unsigned number) {
    if (strncmp(operation, "LOOKUP,", 7) != 0) {
        snprintf(name, NFS3_NAME_MOST + 1, "file-number-%u", number);
        return;
    }
    memset(name, 'x', NFS3_NAME_MOST);
    name[NFS3_NAME_MOST] = 0;
    name[strcmp(operation, "LOOKUP,first") == 0 ? 0 : NFS3_NAME_MOST - 1] = (char)('0' + number);
}

#ifdef MOUNT
static uint8_t table[MOUNT3_TABLE_LENGTH], space[MOUNT3_REPLY_SPACE];

/* Gives every row of the mount table host 1 and a path of 1,024 bytes; the paths differ in their last byte. */
static void fill_table(void) {
    for (size_t row = 0; row < MOUNT3_ROWS; row++) {
        uint8_t *at = table + row * MOUNT3_ROW_LENGTH;
        memset(at, 0, 8);
        at[3] = 1;
        at[6] = MOUNT3_PATH_MOST / 256;
        memset(at + 8, '/', MOUNT3_PATH_MOST);
        at[7 + MOUNT3_PATH_MOST] = (uint8_t)(1 + row);
    }
}

/* A call of MOUNT from host 1, with a path where it is not null. */
static void call_mount(uint32_t procedure, const char *path) {
    len = 0;
    words((uint32_t[]){ 9, 0, 2, MOUNT3_PROGRAM, MOUNT3_VERSION, procedure, 0, 0, 0, 0 }, 10);
    if (path != NULL)
        opaque(path, strlen(path));
    struct nfs3_answer a = mount3_call(call, len, store, store_len, table, sizeof table, space, sizeof space, 1);
    wrong |= a.number | space[23] | (path != NULL ? space[27] : 0);
}
#endif

/* The rows of a store in which every name record is used. The first file has the last name. */
static void turn_links(const char *operation, const char *last) {
    if (strcmp(operation, "LINKS,GETATTR") == 0) {
        begin(GETATTR, 1);
        end();
    } else if (strcmp(operation, "LINKS,LOOKUP") == 0)
        look_up(last);
    else if (strcmp(operation, "LINKS,LINK+REMOVE") == 0) {
        remove_name(last);
        link_to(1, last);
    } else
        wrong = 1;
}

static void turn(const char *operation, int full, const char *last) {
    if (strcmp(operation, "check") == 0)
        wrong |= nfs3_check(store, store_len).number;
    else if (strcmp(operation, "CREATE+REMOVE") == 0) {
        if (full)
            remove_name(last);
        create(full ? last : "another");
        if (!full)
            remove_name("another");
    } else if (strcmp(operation, "RENAME") == 0) {
        rename_to(last, "another");
        rename_to("another", last);
    } else if (strncmp(operation, "LOOKUP", 6) == 0) {
        look_up(last);
    } else if (strcmp(operation, "WRITE") == 0)
        write_bytes(1, 0, 512);
    else if (strcmp(operation, "broken,header") == 0) {
        begin(GETATTR, 0);
        len = 39;
        end_refused();
    } else if (strcmp(operation, "broken,WRITE") == 0) {
        begin_write(1, 0, 512);
        call[len++] = 0;
        end_garbage();
    }
#ifdef MOUNT
    else if (strncmp(operation, "MOUNT", 5) == 0)
        call_mount(strcmp(operation, "MOUNT,MNT") == 0 ? 1 : strcmp(operation, "MOUNT,DUMP") == 0 ? 2 : 0, strcmp(operation, "MOUNT,MNT") == 0 ? "/" : NULL);
#endif
    else {
        static const struct {
            const char *name;
            uint32_t procedure, object, count, arguments[9];
        } plain[] = {
            { "GETATTR", GETATTR, 0, 0, { 0 } },
            { "SETATTR", SETATTR, 1, 8, { 1, 420, 0, 0, 0, 0, 0, 0 } },
            { "READ", READ, 1, 3, { 0, 0, 4096 } },
            { "READDIR", READDIR, 0, 5, { 0, 0, 0, 0, 4096 } },
            { "FSSTAT", FSSTAT, 0, 0, { 0 } },
        };
        for (size_t i = 0; i < sizeof plain / sizeof *plain; i++)
            if (strcmp(operation, plain[i].name) == 0) {
                begin(plain[i].procedure, plain[i].object);
                words(plain[i].arguments, plain[i].count);
                end();
                return;
            }
        if (strcmp(operation, "convert") == 0)
            wrong |= nfs3_convert(old, old_len, made, store_len).number;
        else if (strcmp(operation, "EXCLUSIVE") == 0)
            create_exclusive(last);
        else
            turn_links(operation, last);
    }
}

int main(int argc, char **argv) {
    if (argc != 4)
        return 2;
    int full = strcmp(argv[1], "full") == 0, times = atoi(argv[3]);
    uint32_t objects = full ? NFS3_OBJECTS_MOST : 8, names = full ? NFS3_NAMES_MOST : 8, blocks = full ? NFS3_BLOCKS_MOST : 8;
    char last[NFS3_NAME_MOST + 1];
    store_len = NFS3_STORE_LENGTH(objects, names, blocks);
    wrong = nfs3_format(store, store_len, STAMP, objects, names, blocks, 1, 1).number;
    for (uint32_t file = 1; file <= (full ? objects - 1 : 1); file++) {
        name_file(last, argv[2], (unsigned)file - 1);
        if (strcmp(argv[2], "EXCLUSIVE") == 0 && file == (full ? objects - 1 : 1))
            create_exclusive(last);
        else
            create(last);
        write_bytes(file, 0, NFS3_DATA_MOST);
        if (full)
            write_bytes(file, NFS3_DATA_MOST, NFS3_DATA_MOST);
    }
    make_old(objects);
    uint32_t further = strncmp(argv[2], "LINKS,", 6) == 0 ? names - (full ? objects - 1 : 1) : 0;
    for (uint32_t left = further; left > 0; left--) { /* the last 15 are those of the first file, the 15 before them those of the second */
        name_file(last, argv[2], (unsigned)(names - left));
        link_to(1 + (left - 1) / (NFS3_LINKS_MOST - 1), last);
    }
#ifdef MOUNT
    if (strcmp(argv[2], "MOUNT,full") == 0 || strcmp(argv[2], "MOUNT,DUMP") == 0)
        fill_table();
    else if (strcmp(argv[2], "MOUNT,MNT") == 0)
        call_mount(1, "/");
#endif
    for (int i = 0; i < times; i++)
        turn(argv[2], full, last);
    return wrong != 0;
}
