/*
 * nfs3.h: a file store served over NFS version 3 (RFC 1813), for a daemon in C.
 *
 * The library answers RPC messages. It has no socket, no file and no clock: the daemon lends it the bytes of a call, of the store and of a
 * reply space, and tells it the time. The four functions at the end of this file are proved to give, for any bytes, exactly the answer, the
 * reply and the store that the specification gives. What a daemon does around them is not proved: demo/daemon.c is an example of it, which is
 * tested (demo/daemon_test); its socket and its file are no part of the verified library. Paths are those of the library's repository.
 *
 * To build, with this file in FOLDER: cc -IFOLDER daemon.c libnfs3.a
 *
 * The words: a HOST is a machine or program that sends calls. A HANDLE is what a host holds to name a file or a directory. An OBJECT is a file
 * or a directory. A NAME stands in one directory, and means one object there: a file has 1 to NFS3_LINKS_MOST names, in one directory or in
 * several, a directory has one, and the root none. The STORE is one run of bytes with all objects, names and contents; a daemon keeps it in a
 * file.
 *
 *
 * THE CALLER'S PART
 *
 * The proof speaks of bytes in memory. That hosts lose nothing rests on the daemon too, on each of these duties.
 *
 * 1. Formatting. nfs3_format makes a store once, when it is set up; its counts stay as they are from then on. A daemon that starts never formats
 *    by itself, since that removes all files; on command it may, over any file. Take a stamp that was never used before: 32 random bits other
 *    than the bytes 4 to 7 of the old file, whatever that is, or a counter on stable storage that outlives the store; not the time in seconds,
 *    which repeats when a clock is set back. The handles of the old store are then answered STALE, and hosts mount again.
 *    OTHERWISE: with a stamp used again a handle that a host still holds reaches another file, which the host then reads or overwrites as its
 *    own, since format sets every generation to 0.
 *
 * 2. A copy brought back. Give an older copy of a store a new stamp before its first start: take the lock, read the copy and ask the check (duty
 *    3), write a stamp as in duty 1 over the bytes 4 to 7, most significant first, and save it (duty 7), not in place. The files stay.
 *    OTHERWISE: handles that were given out after the copy was made are given out again for other files. The check does not judge the stamp.
 *
 * 3. Starting. First make sure that no other process has the store, before a format too, by a lock that ends with the process. Not a lock on the
 *    store's own file, since each save puts another file in its place: lock a file beside it, which stays. Different daemons exclude each other
 *    only with the same lock; that of demo/daemon.c is flock of the store's name with ".lock" added. (A lock of fcntl ends when any descriptor of
 *    the lock file is closed.) Refuse or resolve a symbolic link: it is a second name with another lock, and a save replaces it. A hard link is
 *    one too: have none but that of a conversion (below). Then read the file: its length is the store's; refuse more than NFS3_STORE_MOST. What
 *    a stopped save left beside it is never read. Ask nfs3_check: where the answer is not NFS3_DONE, it may be a store of the old layout
 *    (below); else stop and leave the file as it is. Before the first reply bring the file and its directory to stable storage (fsync of both):
 *    the process before may have been stopped within a save, and what is read now is told to hosts. Take a verifier that was never used before:
 *    64 random bits, or a counter on stable storage.
 *    OTHERWISE: two processes save over each other; and a host that sees the same verifier before and after a restart concludes that nothing was
 *    lost in between, and does not send its writes again.
 *
 *    A store of the old layout (see "Editions") is converted once, at the start, under the lock. First nfs3_check, then nfs3_convert, never the
 *    other way round. Where nfs3_convert answers NFS3_DONE, give the file a second name that no other file has (link), fsync the directory, and
 *    save the new store under the store's name (duty 7). A stop at any point leaves the old store or the new one under the store's name, and the
 *    old one under one of the two. Where a file has the second name already, go on only if it has the same bytes, as it has after such a stop.
 *    Hosts go on with their handles and notice nothing. The file that is kept is an older copy from the first reply on: duty 2.
 *    OTHERWISE: a stop while the old file is moved away, or written over, leaves no store at all.
 *
 * 4. Receiving. A call is one RPC message (RFC 5531).
 *    UDP: one datagram is one message. Receive it into more than NFS3_CALL_MOST bytes, or a longer one is cut short and taken for another call.
 *    TCP: messages are records (RFC 5531, section 11). Each fragment starts with 4 bytes, most significant first, whose highest bit says that it
 *    is the last fragment of its record, and whose other 31 bits are the number of bytes that follow; the bytes of the fragments, joined, are the
 *    message. A fragment, and its 4 bytes too, may come in pieces; several records may come at once; a fragment may be empty. The number is not
 *    to be trusted: as soon as those of a record add up to more than NFS3_CALL_MOST, close the connection, as for NFS3_LONG_CALL, without
 *    nfs3_call; never lend the first bytes of a longer message. A connection within a record does not keep others waiting. Do not read from a
 *    connection while replies wait on it. Limit the connections, so that a save always has a descriptor, inherited ones counted; where all places
 *    are taken, close the connection that was silent longest, and its host connects again.
 *    OTHERWISE: a host that reads no replies, or only opens connections, takes all memory or descriptors, and a save fails.
 *
 * 5. Resent calls. The library keeps no replies. Hosts send a call again when its reply is late or lost, over TCP on a new connection: from the
 *    same address, often from another port, with the same bytes; the first 4 of them are the call's number, the xid. Keep the reply to every
 *    call of SETATTR, WRITE, CREATE, MKDIR, REMOVE, RMDIR, RENAME and LINK (2, 7, 8, 9, 12, 13, 14, 15; the words at bytes 12, 16 and 20 of a
 *    call are its program, version and procedure) that is answered NFS3_DONE, whatever its status, with the host's address, without the port,
 *    and the call's bytes. To a call that is the same in both send the kept reply, without nfs3_call. Other bytes under the same xid are a new
 *    call, but not other PADDING: the 0 to 3 bytes behind the bodies of credential and verifier, and behind each handle, each name and the data
 *    of WRITE, up to a multiple of 4. A careless host leaves old memory there, which may be other memory the next time; so compare copies of
 *    calls whose padding is set to zero (nfs3_call takes them as they came). Keep at least the last 200 replies, of all hosts together, for at
 *    least 2 minutes, whichever ends first, by a clock that is never set (CLOCK_MONOTONIC); sending a kept reply does not renew it. Not for
 *    ever: a program that starts again may use its xids again. With several threads, a call that is still being answered is not done a second
 *    time. Replies that are kept in memory are lost when the daemon stops. One call is recognised by the library too: an EXCLUSIVE CREATE, by
 *    the verifier that the host sends with it and the store keeps with the file. With the same verifier it is answered OK with the same handle,
 *    after a restart too, until a SETATTR of the file is answered OK. Keep its reply as well: hosts send that SETATTR at once.
 *    OTHERWISE: a host whose reply was lost is told EXIST for the lock file that it made itself, by CREATE or by LINK, or NOENT for the file that
 *    it removed itself; a late WRITE undoes a newer one; a REMOVE that was answered NOENT, sent again, removes a file that was made since; a
 *    LINK that was answered OK, sent again, brings back a name that was removed since; and a RENAME that was answered OK, sent again when a new
 *    file has the first name, removes the file that it moved and puts the new one in its place.
 *
 * 6. Calling. Lend the whole store and a reply space of NFS3_REPLY_SPACE bytes. Seconds are those since 1970, as 32 bits without a sign; where
 *    the clock is before 1970 or after 2106, stop. Nanoseconds are below NFS3_NANOSECONDS. FSINFO tells hosts 1 nanosecond, so the time is finer
 *    than seconds, and later in each call than in the last one that changed the store, also when the system's clock stands still or is set back.
 *    After a restart the system's clock is good enough.
 *    OTHERWISE: two changes get the same time, and a host that read the file between them sees that time again and goes on using its old bytes.
 *
 * 7. Keeping. Where a call changed the store, and only there, bring all of its bytes to stable storage, all or nothing, BEFORE the reply is sent:
 *    write a new file in the same directory, readable by the daemon alone, fsync it, rename it to the store's name, fsync the directory. Until
 *    then no other reply may show the change either. One save may do for several calls, where all replies since the first are held back. Where
 *    saving fails, send no reply, do not try again (a second fsync may say 0 for bytes that the first one lost), and stop: it is not known which
 *    bytes are on stable storage. Let a person look at the disk, and write the store anew, as a new file, before the next start.
 *    OTHERWISE: every reply to WRITE says FILE_SYNC, which means that the data is on stable storage, so a host that is told so too early drops
 *    its own copy, and a stop of the machine loses the data; and a file that is written in place is damaged by a stop in between.
 *
 *    How to see that a call changed nothing: compare the store's bytes with a copy of those saved last. That is sure, and takes microseconds.
 *    Apart from that, no byte of the store is changed with an answer other than NFS3_DONE; with a reply that is denied or not SUCCESS; with an
 *    NFS status other than OK (the word at byte 24 of a reply whose bytes 4 to 23 are the words 1 0 0 0 0); and by procedures other than the
 *    eight of duty 5. These may leave the store as it was even with OK: WRITE of 0 bytes does, and RENAME of an object onto a name that it has.
 *
 * 8. Sending. The first `length` bytes of the reply space are the whole RPC message. With an answer other than NFS3_DONE there is no reply; enum
 *    nfs3_number says what to do.
 *    Report a message that is refused there, and a call that is answered GARBAGE_ARGS (NFS3_DONE with an offset other than 0), each in one line.
 *    Of a message: the host's address, the answer's number and offset, and the name of the header's field that broke: the message type with
 *    NFS3_OTHER_MESSAGE, and with NFS3_CUT_HEADER and NFS3_LONG_CREDENTIAL the one at the offset; struct nfs3_answer says which it is. Of a call
 *    that is answered GARBAGE_ARGS: the host's address, the program and the procedure (the words at bytes 12 and 20 of the call) and the offset;
 *    its reply is kept and sent like any other, and the connection stays open. So a host that makes its calls wrongly, at the same field again
 *    and again, can be told from a program that sends any bytes to any port. A report never makes the daemon wait, and there are at most a few
 *    lines a second, of both kinds together. Where standard error is closed, open something in its place at the start, or the reports go into
 *    the next file or connection that is opened.
 *    UDP: one datagram to the address and port that the call came from.
 *    TCP: one record on the connection that the call came on, with its 4 bytes in front. Replies may be sent in any order. `send` may take fewer
 *    bytes than it is given: the rest goes first when the connection takes bytes again, and other connections do not wait for it. Ignore SIGPIPE.
 *    A host that has closed its sending side still gets its replies. Closing with bytes unread resets the connection, and replies on their way
 *    are lost; the host then sends its calls again.
 *    OTHERWISE: a host that goes away (SIGPIPE), or one that sends garbage (a log that nobody reads, or that fills the disk), stops the daemon.
 *
 * 9. The root's handle. Hosts get it through the MOUNT protocol (RFC 1813, appendix I: program 100005, version 3): mount3.h is a library for
 *    it, which a daemon may serve on the same port. The handle has NFS3_HANDLE_LENGTH bytes: the stamp (bytes 4 to 7 of the store), then 8 zero bytes
 *    (object 0, generation 0). The root is never removed, so the handle stays the same until the stamp changes.
 *    Every other handle comes from the library's replies.
 *
 * 10. Rights are not looked at yet. Any credential is accepted, and whoever reaches the socket can read and change every file. Listen only where
 *    everybody is trusted.
 *
 *
 * THE FUNCTIONS
 *
 * Memory: they read and write the lent bytes and their own stack, and nothing else. There is no allocation, no static data but constants, no lock,
 *   no system call; they keep no pointer.
 * Time: each ends, whatever the bytes. A call checks the whole store first, which takes a few microseconds for the largest one, and some 20 for one
 *   whose names were chosen to make its check slow; to convert the largest takes some 20. Each name in a call is then compared with the names of
 *   its directory, one after the other: lengths first, then bytes up to the first that differs. That is at most 4,096 pairs of bytes (128 names of
 *   32 bytes), and takes about a microsecond.
 * Threads: they are reentrant, and may run at once on different stores. One store is used by one call at a time, and not saved within
 *   one; simplest is a lock that holds from the call until the store is saved.
 * Stack: at most NFS3_STACK bytes, and NFS3_CONVERT_STACK for nfs3_convert, see there.
 * Pointers: not null, even where the length is 0; no alignment is needed; the buffers of one call do not overlap.
 * Platform: x86-64 with the System V calling convention (Linux). The bytes of a store do not depend on the platform.
 * Editions: the bytes of a store are those of one layout, and no version stands in them. In the layout of this edition an object record has 92
 *   bytes. In the OLD LAYOUT, that of the edition before, it has 80, a file has one name, as a directory has, and all else is the same;
 *   nfs3_convert makes a store of this layout of one in the old layout. Tell them apart by asking nfs3_check first, and nfs3_convert where that
 *   fails. No store that was made by format and calls, of either edition, is good in both layouts; bytes that were made in another way can be,
 *   and count as a store of this layout. The edition before refuses a store of this layout, and an edition that does not serve LINK one in which
 *   a file has several names. Compile a daemon with the header of the edition that it is linked to: struct nfs3_answer is not the same in all.
 */
#ifndef NFS3_H
#define NFS3_H

#include <stddef.h>
#include <stdint.h>

#ifdef __cplusplus
extern "C" {
#endif

/*
 * The program and version that are served (RFC 1813). Calls to others are answered PROG_UNAVAIL and PROG_MISMATCH. Of its procedures READLINK,
 * SYMLINK, MKNOD and READDIRPLUS are not served: they are answered NOTSUPP.
 *   LINK     gives a file one name more, in any directory. Statuses, the first that holds: of the file BADHANDLE, STALE, INVAL for a directory; of
 *            the directory BADHANDLE, STALE, NOTDIR; of the name ACCES, NAMETOOLONG, EXIST for "." and ".." and for one that is there; MLINK (31)
 *            where the file has NFS3_LINKS_MOST names; NOSPC without a free name record. The attribute nlink of a file counts its names.
 *   REMOVE   takes one name away. With the last one the file is freed, and its handle is answered STALE from then on; until then it is read and
 *            written as before.
 *   RENAME   replaces a file by a file, and an empty directory by a directory, in one step. The name that is replaced is taken away as by REMOVE or
 *            RMDIR: a file with another name left stays. Where both names are those of one object, it is answered OK and changes nothing.
 *   READDIR  sends as many names as fit in 4,096 bytes behind the status, or in fewer where the host says so. Where a directory has more, the host
 *            asks for the rest by the last cookie that it got; a name keeps its cookie as long as it is there.
 * FSINFO tells hosts the properties 0x19 (hard links, the same limits for all objects, times that can be set), and PATHCONF linkmax NFS3_LINKS_MOST.
 */
#define NFS3_PROGRAM 100003
#define NFS3_VERSION 3

/* The least length of a reply space, and the greatest length of a call. No reply is longer than the least reply space. */
#define NFS3_REPLY_SPACE 4224
#define NFS3_CALL_MOST 8192

/* Nanoseconds must be below this. */
#define NFS3_NANOSECONDS 1000000000

/*
 * How many objects (the root is one), name records and blocks a store may have; names and blocks may be 0. Each name takes one record. With fewer
 * records than objects without the root, CREATE and MKDIR are answered NOSPC before the objects are used up; each further record is room for one
 * name by LINK. So 64 objects have up to 128 names.
 */
#define NFS3_OBJECTS_LEAST 1
#define NFS3_OBJECTS_MOST 64
#define NFS3_NAMES_MOST 128
#define NFS3_BLOCKS_MOST 1024

/* The lengths that a store is made of: what is there in any store, and each object, name record and block. */
#define NFS3_FIXED_LENGTH 20
#define NFS3_OBJECT_LENGTH 92
#define NFS3_NAME_RECORD_LENGTH 44
#define NFS3_BLOCK_LENGTH 512

/* The exact length of a store with so many objects, name records and blocks, and the greatest one: 535,828 bytes. */
#define NFS3_STORE_LENGTH(objects, names, blocks)                                                                                              \
    ((size_t)NFS3_FIXED_LENGTH + (size_t)NFS3_OBJECT_LENGTH * (objects) + (size_t)NFS3_NAME_RECORD_LENGTH * (names) +                          \
     (size_t)NFS3_BLOCK_LENGTH * (blocks))
#define NFS3_STORE_MOST NFS3_STORE_LENGTH(NFS3_OBJECTS_MOST, NFS3_NAMES_MOST, NFS3_BLOCKS_MOST)

/* The same for the old layout: the length of an object, that of a store with so many of each, and the greatest one: 535,060 bytes. */
#define NFS3_OLD_OBJECT_LENGTH 80
#define NFS3_OLD_STORE_LENGTH(objects, names, blocks)                                                                                          \
    ((size_t)NFS3_FIXED_LENGTH + (size_t)NFS3_OLD_OBJECT_LENGTH * (objects) + (size_t)NFS3_NAME_RECORD_LENGTH * (names) +                      \
     (size_t)NFS3_BLOCK_LENGTH * (blocks))
#define NFS3_OLD_STORE_MOST NFS3_OLD_STORE_LENGTH(NFS3_OBJECTS_MOST, NFS3_NAMES_MOST, NFS3_BLOCKS_MOST)

/* Where the number of objects stands in a store of either layout, most significant byte first, and its length. */
#define NFS3_OBJECT_COUNT_OFFSET 8
#define NFS3_OBJECT_COUNT_LENGTH 4

/* The exact length of the store that nfs3_convert makes of one in the old layout with so many bytes and objects. */
#define NFS3_CONVERTED_LENGTH(old_len, objects) ((size_t)(old_len) + (size_t)(NFS3_OBJECT_LENGTH - NFS3_OLD_OBJECT_LENGTH) * (objects))

/* Where the stamp stands in a store, most significant byte first, and its length. */
#define NFS3_STAMP_OFFSET 4
#define NFS3_STAMP_LENGTH 4

/* The length of a handle: stamp, object, generation, 4 bytes each, most significant first. One of another length is answered BADHANDLE. */
#define NFS3_HANDLE_LENGTH 12

/* The longest run of bytes that is read as a handle in a call, as RFC 1813 has it. A longer one is answered GARBAGE_ARGS. */
#define NFS3_HANDLE_MOST 64

/*
 * The longest name (NAMETOOLONG), the most names of a file (MLINK), the largest file (FBIG, INVAL), the greatest mode (INVAL), and the most bytes
 * that one READ or WRITE moves.
 */
#define NFS3_NAME_MOST 32
#define NFS3_LINKS_MOST 16
#define NFS3_FILE_MOST 8192
#define NFS3_MODE_MOST 4095
#define NFS3_DATA_MOST 4096

/* The longest body of a credential or verifier in a call's header. A longer one is answered NFS3_LONG_CREDENTIAL. */
#define NFS3_CREDENTIAL_MOST 400

/*
 * The stack that a function uses at most, but for nfs3_convert. Measured: about 2,700 bytes for a call, 2,000 for the check and 140 for a format,
 * the most over all calls, checks and formats of the vectors in crates/vectors/data, each run on a stack that was filled with one byte before;
 * demo/stack does so and fails where the bound is not twice as much. The frames of these functions in the library's machine code, added up,
 * have below 5,000 bytes; there is no recursion, and nothing outside the library is called but memset.
 */
#define NFS3_STACK 8192

/*
 * The stack that nfs3_convert uses at most. It makes the new store up to its blocks in its own frame, which has 11,540 bytes for that in each call,
 * and checks it there before it writes to the target. Measured by demo/stack in the same way: about 13,600 bytes; it fails where the bound is not
 * twice as much.
 */
#define NFS3_CONVERT_STACK 32768

/*
 * The number of an answer, the length of the reply, and the offset at which a call broke. The length is 0 for every number but NFS3_DONE, and for
 * the check, format and the converter.
 * The offset counts bytes of the call from its first one, which is 0. It is the byte where a field starts that cannot be read: it is cut short, or
 * its type does not allow what stands there.
 *   NFS3_CUT_HEADER, NFS3_LONG_CREDENTIAL: the first such field of the header. Its name follows from the offset: 8 is the RPC version, 12 program, 16
 *       version, 20 procedure, 24 flavor of the credential, 28 credential. Where it is above 28, let N be the length of the credential, which is
 *       the word at byte 28, rounded up to a multiple of 4: 32 + N is the flavor of the verifier, and 36 + N the verifier.
 *   NFS3_DONE, with a reply that says GARBAGE_ARGS: the first such field of the arguments, which start at byte 40 or later; or, where all of them
 *       can be read, the first byte left over behind the last one.
 * In all other cases it is 0. So with NFS3_DONE and an offset other than 0, and only then, the reply says GARBAGE_ARGS.
 * Fields are the smallest parts: a number of 32 or 64 bits, a boolean, an enumeration, the word that says which of several forms follows, the 8 bytes
 * of a verifier in CREATE and READDIR; a time is two of them, seconds and nanoseconds. A field of variable length (a credential or verifier of the
 * header, a handle, a name, data, a path) starts at its length word: its offset is the same whether that word is cut or above the greatest length,
 * or the bytes or the padding behind it are cut.
 */
struct nfs3_answer {
    uint32_t number;
    uint32_t length;
    uint32_t offset;
};

/*
 * The numbers of answers. All but NFS3_DONE leave every byte of every buffer as it was, and there is no reply.
 *   NFS3_DONE             of a call: save the store where it changed (duty 7), keep the reply where the procedure is one of the eight of duty 5,
 *                         then send it; where the offset is not 0, report it (duty 8). Of the check: the store is good. Of format: it is made;
 *                         save it. Of the converter: the new store is made; keep the old file and save the new one (duty 3).
 *   NFS3_BAD_STORE        the bytes are no store that passes its check. Send nothing and stop. At the start: ask nfs3_convert (duty 3). Where that
 *                         says the same, it is another file, or a damaged one; bring back a copy (duty 2). Later on: something else wrote into
 *                         the store's memory.
 *   NFS3_SMALL_REPLY      the reply space has less than NFS3_REPLY_SPACE bytes: a fault of the daemon. Send nothing and stop.
 *   NFS3_BAD_CLOCK        the nanoseconds are NFS3_NANOSECONDS or more: a fault of the daemon. Send nothing and stop.
 *   NFS3_LONG_CALL        the call has more than NFS3_CALL_MOST bytes. Send nothing, report it (duty 8); over TCP close the connection. No host that
 *                         keeps to what FSINFO told it sends such a call.
 *   NFS3_SHORT_MESSAGE    the message has fewer than 8 bytes, or none. With this number and the next three: send nothing, report it (duty 8); over
 *                         TCP close the connection, since the marks are no longer to be trusted; over UDP drop the datagram.
 *   NFS3_OTHER_MESSAGE    the message's type, the word at byte 4, is not CALL (0). A REPLY (1) is such a message.
 *   NFS3_CUT_HEADER       the message is a call, and ends within its header: the field at the offset is cut short, or not there.
 *   NFS3_LONG_CREDENTIAL  the length at the offset, of a credential or verifier, is above NFS3_CREDENTIAL_MOST, whether its bytes are there or not.
 *   NFS3_BAD_FORMAT       of format: a count is out of range, or the length is not NFS3_STORE_LENGTH of the counts. Of the converter: the old store
 *                         is good, and the target's length is not NFS3_CONVERTED_LENGTH: a fault of the daemon. Stop; the old file is as it was.
 * Treat a number that is not among these like NFS3_BAD_STORE: later editions may add some.
 */
enum nfs3_number {
    NFS3_DONE = 0,
    NFS3_BAD_STORE = 1,
    NFS3_SMALL_REPLY = 2,
    NFS3_BAD_CLOCK = 3,
    NFS3_LONG_CALL = 4,
    NFS3_SHORT_MESSAGE = 5,
    NFS3_BAD_FORMAT = 6,
    NFS3_OTHER_MESSAGE = 7,
    NFS3_CUT_HEADER = 8,
    NFS3_LONG_CREDENTIAL = 9
};

/*
 * Answers one RPC call from the store, which it may change.
 * The first of these that holds: NFS3_SMALL_REPLY, NFS3_BAD_CLOCK, NFS3_LONG_CALL, NFS3_BAD_STORE, NFS3_SHORT_MESSAGE, NFS3_OTHER_MESSAGE; then
 * NFS3_CUT_HEADER or NFS3_LONG_CREDENTIAL, by the first field of the header that cannot be read; else NFS3_DONE, with the reply in the first bytes
 * of its space and no byte after it changed. The header of a call whose RPC version is not 2 ends behind that word. A call that is not understood
 * or not allowed is answered NFS3_DONE too: its reply says so. WRITE and COMMIT send the verifier to the host, most significant byte first. The
 * padding of a call's fields (duty 5) must be there, and may be any bytes: neither the answer nor the reply nor the store depends on them. A reply
 * is padded with zeros.
 */
struct nfs3_answer nfs3_call(const uint8_t *call, size_t call_len, uint8_t *store, size_t store_len, uint8_t *reply, size_t reply_len,
                             uint32_t seconds, uint32_t nanoseconds, uint64_t verifier);

/*
 * NFS3_DONE where the bytes are a store that passes its check, else NFS3_BAD_STORE. Any bytes may be lent. It looks at the structure: counts,
 * objects, names, which blocks are whose. There is no checksum: bytes of files, and times or owners, may be damaged without being noticed.
 */
struct nfs3_answer nfs3_check(const uint8_t *store, size_t store_len);

/*
 * Makes the bytes, whatever they are, a store with a root directory (mode 0755, uid 0, gid 0, times from the clock) and nothing else.
 * The first of these that holds: NFS3_BAD_CLOCK, NFS3_BAD_FORMAT; else NFS3_DONE, with every byte written.
 */
struct nfs3_answer nfs3_format(uint8_t *store, size_t store_len, uint32_t stamp, uint32_t objects, uint32_t names, uint32_t blocks,
                               uint32_t seconds, uint32_t nanoseconds);

/*
 * Makes of a store in the old layout the same store in this one: with the same stamp, counts, objects, generations, attributes, names and bytes of
 * files, and no verifier of an EXCLUSIVE CREATE. So every handle goes on naming its object, and one that is STALE stays so.
 * The first of these that holds: NFS3_BAD_STORE, where the old bytes are no store that passes the check of the old layout (any bytes may be
 * lent; a file with two names fails it); NFS3_BAD_FORMAT, where store_len is not exactly NFS3_CONVERTED_LENGTH; else NFS3_DONE, with every byte
 * of the target written, and the check passes on it. The length and the offset in the answer are 0.
 * How to call it: where the file has fewer than NFS3_FIXED_LENGTH bytes, or NFS3_CONVERTED_LENGTH of its length and of the number at
 * NFS3_OBJECT_COUNT_OFFSET is above NFS3_STORE_MOST, it is no such store. Else lend that length of a target with NFS3_STORE_MOST bytes. The two
 * buffers do not overlap: there is no conversion in place. Ask nfs3_check first (duty 3), and convert nothing that passes it.
 */
struct nfs3_answer nfs3_convert(const uint8_t *old, size_t old_len, uint8_t *store, size_t store_len);

#ifdef __cplusplus
}
#endif

#endif
