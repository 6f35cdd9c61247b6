/*
 * mount3.h: MOUNT version 3 (RFC 1813, appendix I) for a store of nfs3.h: hosts name a directory by its path, and get its handle.
 *
 * A library of its own beside libnfs3.a. It has no socket and no file either: the daemon lends it the bytes of a call, of the store, of a mount table
 * and of a reply space, and tells it which host calls. Its one function, at the end of this file, is proved to give, for any bytes, exactly the
 * answer, the reply and the table that the specification gives. It never changes the store.
 *
 * To build, with both headers in FOLDER: cc -IFOLDER daemon.c libnfs3.a libmount3.a
 *
 * The words are those of nfs3.h, and: a PATH is what a host asks to mount, a slash and names between slashes. The MOUNT TABLE is a run of
 * MOUNT3_TABLE_LENGTH bytes with up to MOUNT3_ROWS pairs of a host and a path.
 *
 *
 * WHAT IT ANSWERS
 *
 * NULL     nothing.
 * MNT      the handle of the path's directory and the flavors of credentials that are served, 0 (AUTH_NONE) and 1 (AUTH_UNIX); and the table gets
 *          the pair of host and path, in its lowest free row. The names of the path are looked up one after the other, as LOOKUP does it: "." is the
 *          directory itself, ".." the one above it, and the root's is the root. Nothing between two slashes is skipped, so "/", "//" and "/a/.." are
 *          the root. Statuses: INVAL where the path does not start with a slash; NOTDIR where a file stands before a name or at the end; ACCES for a
 *          name with a zero byte; NAMETOOLONG over NFS3_NAME_MOST bytes; NOENT; the first name that fails decides. Then SERVERFAULT (10006) where no row
 *          is free, unless the pair is there already.
 * DUMP     the pairs of the table, row by row: the host in dotted decimal, and the path as it was sent.
 * UMNT     nothing; the pair of the calling host and this path is struck, where it is there. The path is compared byte by byte and not looked up.
 * UMNTALL  nothing; all pairs of the calling host are struck.
 * EXPORT   one export, "/", without groups: every host may mount.
 *
 * A path of over MOUNT3_PATH_MOST bytes, in MNT and in UMNT, and bytes after the arguments are GARBAGE_ARGS; the answer has the offset of the path's length
 * word, or of the first byte left over. Other procedures, versions and programs, and other versions of RPC, are answered as nfs3.h says, with the version
 * 3; NFS calls are PROG_UNAVAIL here, and MOUNT calls there.
 *
 *
 * THE CALLER'S PART
 *
 * The duties of nfs3.h hold here too, with these additions.
 *
 * 1. The table. An empty table is MOUNT3_TABLE_LENGTH zero bytes; there is no function that makes one. The table only tells people and programs who has
 *    mounted what: no right and no handle depends on it, and hosts may go on with a handle after UMNT. It may be kept in memory, and is then empty after
 *    a restart; or in a file, which is written as duty 7 of nfs3.h says, and never together with the store. A file that fails its check (MOUNT3_BAD_TABLE)
 *    may be replaced by an empty table; the store is not touched by that.
 *    Many hosts never send UMNT: they are switched off, or their system leaves it out (the Linux kernel's client sends none). So rows stay, and a table
 *    is full after MOUNT3_ROWS different pairs; further ones are answered SERVERFAULT, which stops those hosts from mounting. A daemon may make the table
 *    empty whenever an operator says so.
 *    OTHERWISE: where a table is full of hosts that are long gone, a new desk cannot mount, with nothing wrong in the store.
 *
 * 2. The host is the IPv4 address that the call came from, as a number whose highest byte is the first decimal: 192.0.2.1 is 0xC0000201, that is
 *    ntohl(sin_addr.s_addr), of the socket's peer address and never of anything that the call says of itself.
 *    OTHERWISE: without ntohl, on this platform, DUMP lists 1.2.0.192 for 192.0.2.1.
 *
 * 3. Which function. One port may serve both programs: the word at byte 12 of a call is its program. Lend a call of MOUNT3_PROGRAM to mount3_call, with a
 *    reply space of MOUNT3_REPLY_SPACE bytes, and all others to nfs3_call, which may get the same space. A message of fewer than 16 bytes has no program:
 *    both functions answer it alike. Hosts find the port by the options port= and mountport= of their mount, or by a portmapper (RFC 1833), which is not
 *    in the library.
 *
 * 4. Resent calls. No reply is to be kept. A MNT, UMNT or UMNTALL that is sent again leaves the table as the first one did, unless another call came
 *    between; and then too it changes nothing but the table.
 *
 * 5. Saving. A call of MOUNT leaves the store as it is: there is nothing of it to save.
 *
 *
 * NOTES
 *
 * Memory, time, threads, pointers and platform: as nfs3.h says of its functions. A call checks the whole store and the whole table first: a few
 * microseconds for the largest, and a tenth of a millisecond for a table whose paths were chosen to make its check slow. One table is used by one call
 * at a time; the store may be read by others meanwhile, but not changed.
 *
 * Clients. Linux: mount -t nfs -o vers=3,proto=tcp,mountproto=tcp,port=P,mountport=P,nolock HOST:/path; there is no lock manager, so nolock is needed.
 * demo/kernel_client does so with Debian's kernel. libnfs (version 4) does not work with this server: it refuses any server that reads fewer than
 * 8,192 bytes at a time, and this one moves NFS3_DATA_MOST, 4,096.
 */
#ifndef MOUNT3_H
#define MOUNT3_H

#include "nfs3.h"

#ifdef __cplusplus
extern "C" {
#endif

/* The program and version that are served. */
#define MOUNT3_PROGRAM 100005
#define MOUNT3_VERSION 3

/* The least length of a reply space: DUMP of a full table with the longest hosts and paths. No reply is longer. */
#define MOUNT3_REPLY_SPACE 33692

/* The longest path, and how many pairs a table has at most. */
#define MOUNT3_PATH_MOST 1024
#define MOUNT3_ROWS 32

/*
 * The length of a row, and of the table. A row is the host and the length of the path, 4 bytes each, most significant first, and MOUNT3_PATH_MOST bytes
 * with the path and zeros behind it. A row with a path of length 0 is free, and all zero.
 */
#define MOUNT3_ROW_LENGTH 1032
#define MOUNT3_TABLE_LENGTH 33024

/* The stack that mount3_call uses at most. Measured by demo/stack: about 2,000 bytes; it fails where the bound is not twice as much. */
#define MOUNT3_STACK 8192

/*
 * The number of an answer, beside those of enum nfs3_number. It leaves every byte of every buffer as it was, and there is no reply.
 *   MOUNT3_BAD_TABLE  the bytes are no mount table that passes its check: of another length, a free row that is not zero, a path that does not start with
 *                     a slash or is not padded with zeros, or one pair twice. Send nothing. Read from a file: replace it by an empty table (duty 1). Later
 *                     on: something else wrote into the table's memory; stop.
 */
enum mount3_number {
    MOUNT3_BAD_TABLE = 12
};

/*
 * Answers one RPC call of MOUNT from the store, and changes the table where the call asks for it.
 * The first of these that holds: NFS3_SMALL_REPLY (under MOUNT3_REPLY_SPACE bytes), NFS3_LONG_CALL, NFS3_BAD_STORE, MOUNT3_BAD_TABLE, NFS3_SHORT_MESSAGE,
 * NFS3_OTHER_MESSAGE; then NFS3_CUT_HEADER or NFS3_LONG_CREDENTIAL, by the first field of the header that cannot be read; else NFS3_DONE, with the reply in
 * the first bytes of its space and no byte after it changed. The offset is as struct nfs3_answer says. What to do: as enum nfs3_number says, with nothing
 * to save but the table, and that only if it is kept in a file.
 */
struct nfs3_answer mount3_call(const uint8_t *call, size_t call_len, const uint8_t *store, size_t store_len, uint8_t *table, size_t table_len,
                               uint8_t *reply, size_t reply_len, uint32_t host);

#ifdef __cplusplus
}
#endif

#endif
