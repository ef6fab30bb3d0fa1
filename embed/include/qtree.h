/* qtree: a packet scheduler with the behaviour of Linux's tc, as a library.
 *
 * A program opens a device, which is one scheduler: a tree of queueing disciplines (qdiscs), which lines of tc set up.
 * It describes each packet to the device in a qtree_packet, and keeps the packet's bytes itself. A packet that arrives
 * is queued or lost. A poll takes the packet whose turn it is. Each lost packet is handed out with its cause. These are
 * the calls that a program makes:
 *
 *     qtree_device device = QTREE_CLOSED;
 *     qtree_settings settings = QTREE_DEFAULTS;
 *     qtree_open(&device, &settings);
 *     qtree_run(&device, "tc qdisc add dev wan root handle 1: fq_codel", now, &fault);
 *
 *     qtree_packet packet = { .len = 1500, .buf = 7 };            // for each packet that comes in
 *     qtree_arrive(&device, &packet, now);
 *     while (qtree_poll(&device, now, &packet) == QTREE_DONE) ..  // transmit the packet packet.buf
 *     while (qtree_reap(&device, &loss) == QTREE_DONE) ..         // release the buffer loss.packet.buf
 *     qtree_ready_at(&device, &again);                            // when to poll again
 *
 *     qtree_close(&device);
 *
 * The comment of each function says what the function does, what it takes, what it returns, and what happens on an
 * error. It is the function's manual page, too: man qtree_open. In the repository, docs/EMBEDDING.md has whole
 * programs, docs/LANGUAGE.md each line, and docs/DISCIPLINES.md what the qdiscs do. Programs are in C99 or later, or in
 * C++98 or later. Once the library is installed, this command compiles and links a program:
 *
 *     cc program.c $(pkg-config --cflags --libs qtree)
 *
 * If the shared library is in a folder that the system does not search, add -Wl,-rpath,FOLDER to the command. A library
 * that is not installed is linked by its path: `make -C embed/c` leaves embed/c/build/libqtree.a, which has all that a
 * program needs of it.
 *
 * What a program has to keep to
 *
 * The library is written in Rattle, a Rust with contracts that a prover checks. What each function does to a device,
 * and what it returns, is proved (crates/qtree_c) for every call that keeps to the following rules. No proof can check
 * the rules themselves: they are up to the program.
 *
 *   - Pointers. Every pointer that a program passes is aligned and not null, and points to memory of the program that
 *     no other pointer of the same call overlaps. That includes pointers that the call does not read or write. A
 *     pointer whose length is 0 may be null. A bool is false or true.
 *   - Structs. A program may place a qtree_device, a qtree_port or a qtree_outlet wherever it likes in the memory of
 *     one process, and initializes it with QTREE_CLOSED (all bytes 0). From then on only the functions of this header
 *     read and write it. It may be moved: copied, if the old one is never used again. Of two copies of an open one,
 *     only one may be used. It is closed before its memory is released. Memory that processes share (MAP_SHARED) does
 *     not serve: what the struct points to is on the heap of the process that opened it.
 *   - Threads. Only one call at a time may use a given qtree_device, qtree_port or qtree_outlet. That includes calls
 *     that take a pointer to a const one. If several threads use it, they make each call under one lock. Each of the
 *     three may go from one thread to another if the calls are ordered by a lock, by the start or the join of a thread,
 *     or by a sequentially consistent atomic. Devices are independent of each other, and so are the two ends of a ring:
 *     one thread may use the port while another uses the outlet. A port belongs to one sender and needs no lock. An
 *     outlet is used by the thread that uses the device, or under the lock that guards the device. Functions that take
 *     none of these three may be called by several threads at once, each with memory of its own.
 *   - Signals and fork. No function is called from a signal handler. After a fork, the child uses no device, port or
 *     outlet that was opened before; the child of a program with threads calls no function at all.
 *   - Stack. A thread that calls a function has at least 64 KB of stack left.
 *   - Memory. malloc, realloc and free are those of the C library, or behave as those have to.
 *   - System. The system is Linux with any C library (glibc, musl), and the processor has pointers of 64 bits and
 *     little-endian byte order. This header makes the compiler refuse all others. The library that Rattle's compiler
 *     builds is for x86-64-v2 or later (SSE4.2 and POPCNT); nothing here can see that an x86-64 processor is older.
 *     Rattle also proves and builds the library for aarch64, which was tried under qemu. A portable package has the
 *     same library as LLVM IR, which clang compiles; docs/ROUTER.md says on which processors that was tried. Structs
 *     have the same sizes and offsets on all of these: a pointer and a size_t have 8 bytes, and each number is aligned
 *     to its size.
 *
 * What holds for all functions
 *
 * No function waits for a thread, a file or a clock, and none prints, aborts or calls back. A call may take long all
 * the same: a poll looks at each class or flow of which it may have to take a packet, and CoDel may drop many packets
 * in one poll. docs/TIMING.md says what each call takes, and what to set so that it stays short. Offers, polls and
 * reaps allocate nothing, and neither do functions that read or mark headers, or that read counters, shares or times.
 *
 * A time, such as the argument now, is in nanoseconds since an instant that the program chooses, and is at most
 * QTREE_MOMENT_MAX. The device reads no clock. Time never goes back: the latest time that has counted so far counts in
 * place of a time before it.
 *
 * An argument has the full range of its type where no range is named.
 */
#ifndef QTREE_H
#define QTREE_H

#if !defined(__linux__) || !defined(__LP64__) || defined(__ILP32__) || __BYTE_ORDER__ != __ORDER_LITTLE_ENDIAN__
#error "qtree is compiled for Linux with pointers of 64 bits and little-endian byte order, and for nothing else"
#endif

#include <stdbool.h>
#include <stddef.h>
#include <stdint.h>
#include <string.h>

#if defined(__cplusplus) && __cplusplus >= 201103L
#define QTREE_NULL nullptr
#else
#define QTREE_NULL NULL
#endif

#ifdef __cplusplus
extern "C" {
#endif

/* ---- Versions, codes and types ---- */

/* The version of this header. Within one major number, functions and numbers are only added, and no struct changes. */
#define QTREE_VERSION_MAJOR 1
#define QTREE_VERSION_MINOR 3

/* Returns the version of the library: the major number in the high 16 bits, and the minor number in the low 16 bits. */
uint32_t qtree_version(void);

/* The latest time that a call accepts: 2^62 nanoseconds. */
#define QTREE_MOMENT_MAX (UINT64_C(1) << 62)

/* What a function returns.
 *
 * A call has done what it was called for if it returns QTREE_DONE or a cause of a loss. It has also done so if it
 * returns QTREE_IDLE, QTREE_LATER or QTREE_NOTHING, and then it has nothing, or nothing more, to hand out.
 *
 * Every other code is an error. On an error nothing has changed, and nothing is written except a count or a length of
 * 0, with QTREE_ROOM the length that a text needs, with QTREE_FAULTY the fault, and what qtree_set_up reports. That
 * function, and those that do their work packet by packet, say how far they came.
 *
 * Causes have the numbers that qtree's reports write. Within one major number causes, and no other codes, have the
 * numbers 1 to QTREE_LOST_MOST. */
typedef uint32_t qtree_code;
enum {
    QTREE_DONE = 0,
    /* Why a packet is lost. For the first three causes it is refused on arrival, and for the others it is dropped. */
    QTREE_LOST_TOO_LONG = 1,   /* it is longer than the mtu or than a tbf's burst */
    QTREE_LOST_NO_CLASS = 2,   /* no filter of a drr takes it */
    QTREE_LOST_OVER_LIMIT = 3, /* its pfifo or bfifo has no room */
    QTREE_LOST_CODEL = 4,      /* CoDel dropped it */
    QTREE_LOST_FAT_FLOW = 5,   /* an fq_codel that was over its limit dropped it */
    QTREE_LOST_PURGED = 6,     /* a command removed its qdisc */
    /* Why a command is refused. (Linux has EEXIST, ENOENT and the like.) An allocation failure is QTREE_MEMORY. */
    QTREE_REFUSED_NO_PARENT = 10,     /* no qdisc has the parent's handle */
    QTREE_REFUSED_EXISTS = 11,        /* a qdisc, or the class, is there already */
    QTREE_REFUSED_NO_QDISC = 12,      /* there is no such qdisc */
    QTREE_REFUSED_HANDLE_TAKEN = 13,  /* another qdisc has the handle */
    QTREE_REFUSED_NOT_CLASSFUL = 14,  /* the qdisc has no classes, or takes no filters */
    QTREE_REFUSED_NO_CLASS = 15,      /* the qdisc lacks the class */
    QTREE_REFUSED_BUSY = 16,          /* a filter leads to the class */
    QTREE_REFUSED_CANNOT_CHANGE = 17, /* this kind of qdisc, or the number of flows, cannot be changed */
    QTREE_REFUSED_TOO_DEEP = 18,      /* the tree would have more than eight levels */
    QTREE_REFUSED_TOO_MANY = 19,      /* there would be more than 256 qdiscs, or more than 256 filters at one qdisc */
    QTREE_REFUSED_SMALL_BURST = 20,   /* the burst is below both the tbf's present burst and the mtu */
    QTREE_REFUSED_NO_FILTER = 21,     /* no filter of the qdisc has the prio */
    /* Why a poll returns no packet. */
    QTREE_IDLE = 30,  /* no packet is queued */
    QTREE_LATER = 31, /* packets are queued, but none may go yet */
    /* There is nothing to hand out: no loss waits, there is no such qdisc, class or event, no poll will ever return a
     * packet, or nothing is promised. */
    QTREE_NOTHING = 32,
    /* The ring of the port has no room for another packet. */
    QTREE_FULL = 33,
    /* Why a line changes no tree. */
    QTREE_FAULTY = 40,     /* it cannot be read, and a qtree_fault says why */
    QTREE_NO_COMMAND = 41, /* it is a line of the language that is no command */
    /* Why a call is refused. */
    QTREE_OUT_OF_RANGE = 42, /* an argument, or a field of a struct, is out of its range */
    QTREE_ROOM = 43,         /* the memory that the program lends is too small */
    QTREE_UNDONE = 44,       /* a line of the file cannot be carried out, and so none was */
    QTREE_IS_CLOSED = 50,    /* the device, the port or the outlet is closed */
    QTREE_IS_OPEN = 51,      /* it is open already */
    QTREE_MEMORY = 90        /* an allocation failed */
};

/* The greatest number of a cause: a later minor version may add causes up to this number. So an array that has a
 * place for each cause needs QTREE_LOST_MOST + 1 places. */
#define QTREE_LOST_MOST 9

/* Says whether a code is the cause of a loss, including causes that only a later version has.
 *
 * If an arrival returns a cause, the packet is lost, and its buffer is released when the loss is reaped. If an
 * arrival returns neither a cause nor QTREE_DONE, the packet stays with the program. */
static inline bool qtree_is_loss(qtree_code code) { return code >= QTREE_LOST_TOO_LONG && code <= QTREE_LOST_MOST; }

/* A device. Its fields are for the library alone. */
typedef struct qtree_device {
    void *at;
    uint64_t state;
} qtree_device;

/* Initializes a qtree_device, a qtree_port or a qtree_outlet that is not open. */
#define QTREE_CLOSED { QTREE_NULL, 0 }

/* The two ends of a ring, by which a sender with a thread of its own passes packets to a device without a lock: the
 * sender has the port, and the thread that has the device also has the outlet. */
typedef struct qtree_port {
    void *at;
    uint64_t state;
} qtree_port;
typedef struct qtree_outlet {
    void *at;
    uint64_t state;
} qtree_outlet;

/* What a device is opened with. */
typedef struct qtree_settings {
    uint32_t txqueuelen; /* how many packets a pfifo holds for which no limit is given */
    uint32_t recorder;   /* how many events are recorded, from the first one on: 0 to 1000000 */
    uint16_t mtu;        /* the length of the longest packet that is taken: 1 to 65535 bytes */
} qtree_settings;

/* Initializes a qtree_settings with values that suit most programs: the txqueuelen of Linux, no recorder, and an mtu
 * of 1500 bytes plus the 14 bytes of an Ethernet header. */
#define QTREE_DEFAULTS { 1000, 0, 1514 }

/* The descriptor of a packet. The packet's bytes stay with the program. A field that a packet lacks is 0. */
typedef struct qtree_packet {
    uint64_t src_high; /* the high 64 bits of the source address; 0 if the address is one of IPv4 */
    uint64_t src_low;  /* its low 64 bits; an IPv4 address is in the low 32 of them: 10.0.0.1 is 0x0a000001 */
    uint64_t dst_high; /* the destination address, in the same way */
    uint64_t dst_low;
    uint64_t number; /* the packet's number among those of the port by which it came; otherwise the program's own */
    uint32_t port;   /* the index of that port; otherwise the program's own */
    uint32_t buf;    /* the program's own number for the packet's bytes, which comes back with the packet */
    uint32_t hash;   /* by this an fq_codel chooses the flow; qtree_read_head and qtree_hash compute it */
    uint16_t len;    /* the length, by which all qdiscs count: 1 to 65535 bytes */
    uint16_t sport;  /* the source port of TCP or UDP */
    uint16_t dport;  /* the destination port */
    uint8_t proto;   /* the protocol above IP */
    uint8_t family;  /* 4, 6, or 0 if the packet is not IP */
    uint8_t prio;    /* the priority, 0 to 15, as skb->priority: the index into the priomap of a prio */
    uint8_t ecn;     /* the ECN codepoint, 0 to 3; if a poll returns 3, qtree_mark_head writes it into the bytes */
} qtree_packet;

/* A lost packet, and why it is lost. */
typedef struct qtree_loss {
    qtree_packet packet;
    qtree_code cause; /* QTREE_LOST_.. */
} qtree_loss;

/* A number of packets, and the sum of their lengths in bytes. */
typedef struct qtree_count {
    uint64_t packets;
    uint64_t bytes;
} qtree_count;

/* The counters of a qdisc, or of a device. In packets and in bytes, what arrived is what was sent, refused or dropped,
 * or is queued. */
typedef struct qtree_row {
    qtree_count arrived; /* including what was refused */
    qtree_count sent;
    qtree_count refused; /* lost as QTREE_LOST_TOO_LONG, QTREE_LOST_NO_CLASS or QTREE_LOST_OVER_LIMIT */
    qtree_count dropped; /* lost for another cause, even if that was on arrival */
    qtree_count queued;  /* now */
    qtree_count marked;  /* by CoDel; it is part of no sum */
} qtree_row;

/* What is wrong with a line. */
typedef struct qtree_fault {
    size_t word;     /* which word of the line is wrong: the index of a word, not a column, counted from 1 */
    uint32_t number; /* QTREE_FAULT_.. */
} qtree_fault;
enum {
    QTREE_FAULT_UNKNOWN_WORD = 1, /* the word has no meaning in its place */
    QTREE_FAULT_MISSING = 2,      /* the line needs another word; the index is one past that of the last word */
    QTREE_FAULT_BAD_NUMBER = 3,   /* the value is not written as it has to be */
    QTREE_FAULT_OUT_OF_RANGE = 4, /* the value is out of its range */
    QTREE_FAULT_TWICE = 5,        /* the word was given before */
    QTREE_FAULT_BAD_UTF8 = 6      /* the word is not UTF-8 */
};

/* ---- Opening and closing ---- */

/* Opens a device with a pfifo at its root, and allocates the memory of its recorder.
 *
 * device    a closed device, as QTREE_CLOSED initializes one
 * settings  the mtu, the txqueuelen and the size of the recorder
 *
 * Returns
 *   QTREE_DONE          the device is open
 *   QTREE_OUT_OF_RANGE  a setting is out of its range
 *   QTREE_IS_OPEN       the device is open already
 *   QTREE_MEMORY        an allocation failed
 * On an error nothing has changed. */
qtree_code qtree_open(qtree_device *device, const qtree_settings *settings);

/* Closes a device and frees its memory. Packets that are queued are discarded, and are not losses. Losses that wait
 * are discarded too. To get the buffers back first, a program deletes the root by a line of tc, so that all packets are
 * lost, and then reaps. If no qdisc was added, it polls until QTREE_IDLE, and then reaps. If the device is closed,
 * nothing happens. */
void qtree_close(qtree_device *device);

/* ---- Commands ---- */

/* Carries out one line of tc that changes the tree. A line adds, changes or deletes a qdisc or a class of a drr, or
 * adds or deletes a filter. qtree has a part of tc's lines: there is no replace, and the only filter is flower,
 * which unlike Linux's needs neither the word protocol nor ip_proto before a port. In the repository, docs/LANGUAGE.md
 * has the words of each line, and docs/DISCIPLINES.md the options of each qdisc with their ranges and defaults. Packets
 * of what the line removes are lost, and wait to be reaped.
 *
 * A change of a tbf or a prio says all that an add has to say. A change of another qdisc, or of a class of a drr,
 * leaves alone what it does not name.
 *
 * line   line_len bytes, with a newline at their end or without one. The name of the device in the line means
 *        nothing.
 * now    the time
 * fault  is written only if QTREE_FAULTY is returned: the word that is wrong, and why
 *
 * Returns
 *   QTREE_DONE          the line was carried out
 *   QTREE_REFUSED_..    the command is refused
 *   QTREE_FAULTY        the line cannot be read
 *   QTREE_NO_COMMAND    the line is of another kind: it is blank, a comment, a line that shows something, or a line
 *                       of a script, such as one that polls
 *   QTREE_OUT_OF_RANGE  the time is out of its range
 *   QTREE_IS_CLOSED     the device is closed
 *   QTREE_MEMORY        an allocation failed
 * On an error the device stays as it is. qtree_explain writes out what is wrong with a line.
 *
 * For example, these lines limit a link to 20 Mbit/s, and give packets to the UDP port 5060 a third of it while there
 * are any:
 *
 *     tc qdisc add dev wan root handle 1: tbf rate 20mbit burst 6000 latency 50ms
 *     tc qdisc add dev wan parent 1:1 handle 2: drr
 *     tc class add dev wan parent 2: classid 2:1 drr quantum 1500
 *     tc class add dev wan parent 2: classid 2:2 drr quantum 3000
 *     tc qdisc add dev wan parent 2:1 handle 10: pfifo limit 100
 *     tc qdisc add dev wan parent 2:2 handle 20: fq_codel
 *     tc filter add dev wan parent 2: prio 1 flower ip_proto udp dst_port 5060 classid 2:1
 *     tc filter add dev wan parent 2: prio 2 flower classid 2:2
 *
 * A drr loses each packet that no filter takes. So the last filter has no keys, and takes all that the others leave.
 *
 * These lines change the rate, then the target of the fq_codel, and then delete the tree:
 *
 *     tc qdisc change dev wan root tbf rate 10mbit burst 6000 latency 50ms
 *     tc qdisc change dev wan parent 2:2 fq_codel target 10ms
 *     tc qdisc del dev wan root
 *
 * docs/SETTINGS.md helps to choose a tree and its numbers. */
qtree_code qtree_command(qtree_device *device, const uint8_t *line, size_t line_len, uint64_t now, qtree_fault *fault);

/* Does what qtree_command does, with a line that ends with a zero byte. Here fault may be null. */
static inline qtree_code qtree_run(qtree_device *device, const char *line, uint64_t now, qtree_fault *fault) {
    const void *bytes = line;
    qtree_fault unread;
#ifdef __cplusplus
    const uint8_t *text = static_cast<const uint8_t *>(bytes);
#else
    const uint8_t *text = bytes;
#endif
    return qtree_command(device, text, strlen(line), now, fault ? fault : &unread);
}

/* What qtree_set_up did. */
typedef struct qtree_report {
    uint64_t lines;   /* the lines of the file, including blank lines and comments */
    uint64_t added;   /* how many qdiscs, classes and filters were added */
    uint64_t changed; /* how many qdiscs and classes were changed */
    uint64_t deleted; /* how many qdiscs, classes, and priorities of filters were deleted */
    size_t undone;    /* how many lines cannot be carried out */
} qtree_report;

/* A line of a file that cannot be carried out: what qtree_command would return for it. */
typedef struct qtree_undone {
    qtree_fault fault; /* if the code is QTREE_FAULTY */
    uint64_t line;     /* the number of the line, counted from 1 */
    qtree_code code;
} qtree_undone;

/* Makes the tree what a whole file of tc lines says, even while packets are queued. A program calls this function
 * when it starts, and again whenever its file has changed.
 *
 * What the tree has already with the same words stays, with its packets. What differs is changed, or replaced if it
 * cannot be changed, and then its packets are lost. What is gone from the file is deleted, and what is new is added.
 * docs/EMBEDDING.md says what stays.
 *
 * First, all lines are tried on a new device with the same settings. If one of them is not carried out there, nothing
 * is done to the device, and QTREE_UNDONE is returned.
 *
 * text    the file: text_len bytes of lines, which may include blank lines and comments
 * now     the time
 * report  what was done; report->undone counts all lines that cannot be carried out, including lines that would be if
 *         an earlier one were
 * undone  room structs, into which the first of these lines are written; qtree_explain makes a sentence on each, from
 *         the bytes of the line in the text
 *
 * Returns
 *   QTREE_DONE          the tree is what the lines make of a new device, apart from packets, counters, the order of the
 *                       classes of a drr, and handles that the device chose
 *   QTREE_UNDONE        some lines cannot be carried out, and nothing has changed
 *   QTREE_OUT_OF_RANGE  the time is out of its range; nothing has changed, and the report is all 0
 *   QTREE_IS_CLOSED     the device is closed; the report is all 0
 *   QTREE_MEMORY        an allocation failed. What was done before that stays, and the report counts it. The same
 *                       call does the rest.
 * The commands that are carried out are recorded and noted like those of qtree_command. If the tree is already what
 * the file says, there are none. */
qtree_code qtree_set_up(qtree_device *device, const uint8_t *text, size_t text_len, uint64_t now, qtree_report *report,
                        qtree_undone *undone, size_t room);

/* ---- Headers of packets ---- */

/* Reads the IP header of a packet, and the ports behind it, into a qtree_packet, and hashes its flow.
 *
 * bytes   the first count bytes of the packet, from its IP header on; the whole header and the 4 bytes behind it,
 *         which may be ports, are enough
 * seed    the seed of the hash: any number, best one drawn at random (getrandom): docs/SETTINGS.md says why
 * packet  family, proto, addresses, ports, prio, ecn and hash are filled in. number, port, buf and len stay as they
 *         are, so the program sets len and buf itself.
 *
 * If the bytes are not an IP header, the fields that are read are 0. In an Ethernet frame, qtree_ip_at finds the IP
 * header. This function uses no device. */
void qtree_read_head(const uint8_t *bytes, size_t count, uint32_t seed, qtree_packet *packet);

/* Do what qtree_read_head does without computing a hash, which takes most of its time. qtree_read_fields sets the
 * hash to 0. qtree_read_fields_hashed sets it to one that the program has, for example from a network card.
 *
 * An fq_codel puts packets with the same hash into the same flow. If no fq_codel is in the tree, nothing reads a
 * hash. */
void qtree_read_fields(const uint8_t *bytes, size_t count, qtree_packet *packet);
void qtree_read_fields_hashed(const uint8_t *bytes, size_t count, uint32_t hash, qtree_packet *packet);

/* Finds the IP header in the first count bytes of an Ethernet frame.
 *
 * Returns the index of the header's first byte: 14, or 18 or 22 behind one or two VLAN tags (IEEE 802.1Q, 802.1ad).
 * Returns 0 if the frame has another type, such as ARP, or more tags, or if it ends before its type does. This
 * function does not check whether a whole header follows. If none does, the functions that read it set family to 0. */
size_t qtree_ip_at(const uint8_t *bytes, size_t count);

/* Computes the hash of a packet's flow from family, proto, addresses and ports, with this seed, and writes it into
 * packet->hash.
 *
 * Returns QTREE_DONE; or QTREE_OUT_OF_RANGE if family or an address is out of its range, and then the packet stays as
 * it is. */
qtree_code qtree_hash(uint32_t seed, qtree_packet *packet);

/* Writes the mark Congestion Experienced (RFC 3168) into a packet that begins with its IP header, and updates the
 * checksum of an IPv4 header. A program calls it for each packet that a poll returns with the ecn 3: otherwise the
 * packet's sender never learns of the congestion.
 *
 * bytes  the first count bytes of the packet, from its IP header on
 *
 * Returns whether the packet is marked now. It is marked if qtree_read_head reads from these bytes an ecn that is not
 * 0. Otherwise no byte is written. */
bool qtree_mark_head(uint8_t *bytes, size_t count);

/* ---- Arrivals ---- */

/* Enqueues a packet: the device queues it or loses it. qtree_reap hands out a lost packet, too: its buffer is released
 * then, and not before. An arrival at a full fq_codel may lose other packets, which then wait to be reaped.
 *
 * packet  the descriptor; the device copies it
 * now     the time
 *
 * Returns
 *   QTREE_DONE          the packet is queued
 *   QTREE_LOST_..       the packet is lost, and this is the cause
 *   QTREE_OUT_OF_RANGE  a field of the packet, or the time, is out of its range; qtree_out_of_range names it
 *   QTREE_IS_CLOSED     the device is closed
 *   QTREE_MEMORY        an allocation failed
 * On an error the packet has not arrived, and nothing has changed: the program keeps the packet. qtree_is_loss tells
 * a loss from an error. */
qtree_code qtree_arrive(qtree_device *device, const qtree_packet *packet, uint64_t now);

/* Enqueue a packet whose header the function reads itself: these do what qtree_read_fields_hashed and qtree_arrive do
 * together, without a qtree_packet. qtree_arrive_frame_seeded computes the hash with a seed, as qtree_read_head does.
 *
 * bytes  the first count bytes of the packet, from its IP header on
 * len    the length that the qdiscs count, 1 to 65535 bytes
 * buf    the program's own number, which comes back with the packet
 * hash   the hash of the flow; it may be 0 if no fq_codel is in the tree
 * now    the time
 *
 * The number and the port of the packet are 0.
 *
 * They return what qtree_arrive returns; QTREE_OUT_OF_RANGE is for a len of 0 and for the time. */
qtree_code qtree_arrive_frame(qtree_device *device, const uint8_t *bytes, size_t count, uint16_t len, uint32_t buf,
                              uint32_t hash, uint64_t now);
qtree_code qtree_arrive_frame_seeded(qtree_device *device, const uint8_t *bytes, size_t count, uint16_t len,
                                     uint32_t buf, uint32_t seed, uint64_t now);

/* Does what qtree_arrive_frame does, for a packet that also has a number, which comes back with the packet. The
 * number has room for a pointer, which buf has not. */
qtree_code qtree_arrive_frame_numbered(qtree_device *device, const uint8_t *bytes, size_t count, uint16_t len,
                                       uint32_t buf, uint64_t number, uint32_t hash, uint64_t now);

/* Says why an arrival returns QTREE_OUT_OF_RANGE.
 *
 * Returns the name of a field of the packet that is out of its range, such as "len" or "prio"; "now" if the time is;
 * or null if none is. If it is null, and only then, an open device does not return QTREE_OUT_OF_RANGE for an arrival
 * of this packet at this time. The name is static. */
static inline const char *qtree_out_of_range(const qtree_packet *packet, uint64_t now) {
    if (now > QTREE_MOMENT_MAX) return "now";
    if (packet->len == 0) return "len";
    if (packet->prio > 15) return "prio";
    if (packet->ecn > 3) return "ecn";
    if (packet->family != 0 && packet->family != 4 && packet->family != 6) return "family";
    if (packet->family != 4) return QTREE_NULL;
    if (packet->src_high != 0) return "src_high";
    if (packet->src_low > UINT32_MAX) return "src_low";
    if (packet->dst_high != 0) return "dst_high";
    if (packet->dst_low > UINT32_MAX) return "dst_low";
    return QTREE_NULL;
}

/* Enqueues packets in order, all at one time, each as qtree_arrive does. The first packet that is out of
 * range, or for which an allocation fails, does not arrive, and ends the call.
 *
 * packets  count descriptors
 * codes    codes_len places, count at least: codes[i] is the result for packets[i], QTREE_DONE or a cause, if it
 *          arrived
 * done     how many packets arrived
 * now      the time
 *
 * Returns
 *   QTREE_DONE          all packets arrived
 *   QTREE_OUT_OF_RANGE  the time, or a field of the next packet, is out of its range
 *   QTREE_ROOM          codes_len is less than count; no packet arrived
 *   QTREE_IS_CLOSED     the device is closed; no packet arrived
 *   QTREE_MEMORY        an allocation failed for the next packet
 * On an error the packets from packets[done] on stay with the program. */
qtree_code qtree_arrive_many(qtree_device *device, const qtree_packet *packets, size_t count, uint8_t *codes,
                             size_t codes_len, size_t *done, uint64_t now);

/* ---- Polls ---- */

/* Takes the packet whose turn it is. CoDel may lose other packets in a poll, which then wait to be reaped.
 *
 * now     the time
 * packet  the packet, if QTREE_DONE is returned
 *
 * Returns
 *   QTREE_DONE          the packet has left the device
 *   QTREE_IDLE          no packet is queued
 *   QTREE_LATER         packets are queued, but none may go yet; qtree_ready_at says when to poll again
 *   QTREE_OUT_OF_RANGE  the time is out of its range
 *   QTREE_IS_CLOSED     the device is closed
 * On an error nothing has changed. */
qtree_code qtree_poll(qtree_device *device, uint64_t now, qtree_packet *packet);

/* Polls until there are room packets, or until a poll returns none.
 *
 * now      the time of all polls
 * packets  room places for the packets
 * count    how many packets there are: also with QTREE_IDLE and QTREE_LATER there may be some; on an error it is 0
 *
 * Returns QTREE_DONE if there are room packets. Otherwise it returns what the last poll returned; the codes are those
 * of qtree_poll. */
qtree_code qtree_poll_many(qtree_device *device, uint64_t now, qtree_packet *packets, size_t room, size_t *count);

/* The fields of a packet that a program needs in order to transmit it. */
typedef struct qtree_sent {
    uint64_t number; /* number and port are the program's own, or those of the ring by which the packet came */
    uint32_t port;
    uint32_t buf;
    uint16_t len;
    uint8_t ecn; /* if it is 3, qtree_mark_head writes it into the packet's bytes */
} qtree_sent;

/* Do what qtree_poll and qtree_poll_many do, and return the same codes, for a program that only transmits: of each
 * packet they write just the fields that it needs for this. */
qtree_code qtree_poll_buf(qtree_device *device, uint64_t now, qtree_sent *sent);
qtree_code qtree_poll_bufs(qtree_device *device, uint64_t now, qtree_sent *sent, size_t room, size_t *count);

/* Computes until when a program may sleep: the time before which no poll returns a packet, provided that no packet
 * arrives and no command is carried out.
 *
 * moment  the time, if QTREE_DONE is returned; it is no earlier than the latest time that counted
 *
 * A poll at that time may still return QTREE_LATER: only a poll finds out which packet an fq_codel gives, or which
 * class a drr serves. The next qtree_ready_at then gives a later time.
 *
 * qtree_lateness, qtree_worst and qtree_latest say how late a program may be. The program calls this function again
 * after each arrival and each command. While the time is ahead, the newest time counts. Once it has come, it stays,
 * whatever arrives: the program is late by the time from then to the poll that returns no packet.
 *
 * Returns
 *   QTREE_DONE       *moment is that time
 *   QTREE_NOTHING    no poll will ever return a packet: none is queued, or no token bucket will ever hold enough
 *   QTREE_IS_CLOSED  the device is closed
 *
 * For example, a program that has just read its clock sends what is due:
 *
 *     while (qtree_ready_at(&device, &again) == QTREE_DONE && again <= now) {
 *         if (qtree_poll(&device, now, &packet) == QTREE_DONE) transmit(packet.buf);
 *     }
 *
 * Then it sleeps until a packet comes in or, if qtree_ready_at returned QTREE_DONE, until the time again, whichever
 * is first. A packet that a sender places in a ring wakes nobody: see qtree_offer. docs/EMBEDDING.md has whole event
 * loops. */
qtree_code qtree_ready_at(const qtree_device *device, uint64_t *moment);

/* Computes the most packets that can be queued in the device, now and as long as no command changes it.
 *
 * packets  the sum of the limits of all queues, and one packet for each tbf, drr and fq_codel, which may hold the
 *          packet that goes next. If a queue's limit was set below what it has queued, what it has queued counts in
 *          place of the limit.
 *          A limit in bytes counts as so many packets, since a packet has at least one byte. UINT64_MAX stands for
 *          more.
 *
 * A program needs a buffer for each of these packets, for the packet that arrives, for each place of a ring, for each
 * packet that it polled and has not sent, and for each loss that it has not reaped. docs/SETTINGS.md has an example.
 *
 * Returns QTREE_DONE, or QTREE_IS_CLOSED if the device is closed. */
qtree_code qtree_most_packets(const qtree_device *device, uint64_t *packets);

/* ---- Losses ---- */

/* Hands out the oldest loss that was not handed out yet. A program that does not need its losses reaps them too,
 * since losses that wait keep memory.
 *
 * loss  the packet and the cause, if QTREE_DONE is returned
 *
 * Returns
 *   QTREE_DONE       *loss is that loss, and the device no longer has it
 *   QTREE_NOTHING    no loss waits
 *   QTREE_IS_CLOSED  the device is closed */
qtree_code qtree_reap(qtree_device *device, qtree_loss *loss);

/* Hands out losses until there are room of them, or until none waits any more.
 *
 * losses  room places for the losses, the oldest first
 * count   how many losses there are
 *
 * Returns
 *   QTREE_DONE       there are room losses
 *   QTREE_NOTHING    there are count losses, and none waits any more
 *   QTREE_IS_CLOSED  the device is closed, and the count is 0 */
qtree_code qtree_reap_many(qtree_device *device, qtree_loss *losses, size_t room, size_t *count);

/* ---- Turns ---- */

/* The fields of a lost packet that a program needs in order to release its bytes. */
typedef struct qtree_lost {
    uint64_t number; /* number and port are the program's own, or those of the ring by which the packet came */
    uint32_t port;
    uint32_t buf;
    qtree_code cause; /* QTREE_LOST_.. */
} qtree_lost;

/* What a turn did, and when to take the next one. */
typedef struct qtree_turned {
    size_t sent;    /* how many packets are in sent, in its first places */
    size_t lost;    /* how many losses are in lost, in its first places */
    uint64_t again; /* before this time no poll returns a packet, as qtree_ready_at has it; UINT64_MAX if none ever will */
} qtree_turned;

/* Takes one turn of a program's loop: polls for what is due, hands out losses, and says when to come back.
 *
 * now     the time of all polls
 * sent    room places for the packets to send. If one may go at that time, the device is polled as by
 *         qtree_poll_bufs. Otherwise it is not polled, and there is no event.
 * lost    lost_room places for the packets that were lost, the oldest first, as qtree_reap_many hands them out
 * turned  what was done; on an error 0 packets and 0 losses, and never
 *
 * Either number of places may be 0: such a turn polls nothing, or leaves the losses where they are, and its count says
 * nothing of what is due or waits.
 *
 * If turned->sent is room, more packets may be due, and if turned->lost is lost_room, more losses may wait: the
 * program takes another turn at once. Otherwise it sleeps until the time turned->again, or until a packet comes in:
 * docs/EMBEDDING.md has whole event loops.
 *
 * Returns
 *   QTREE_DONE          *turned says what was done
 *   QTREE_OUT_OF_RANGE  the time is out of its range
 *   QTREE_IS_CLOSED     the device is closed
 *
 * For example, a program that has just read its clock:
 *
 *     do {
 *         qtree_turn(&device, now, sent, ROOM, lost, ROOM, &turned);
 *         for (size_t i = 0; i < turned.sent; i++) transmit(sent[i].buf);
 *         for (size_t i = 0; i < turned.lost; i++) release(lost[i].buf);
 *     } while (turned.sent == ROOM || turned.lost == ROOM);
 *     // sleep until turned.again, or until a packet comes in
 */
qtree_code qtree_turn(qtree_device *device, uint64_t now, qtree_sent *sent, size_t room, qtree_lost *lost, size_t lost_room,
                      qtree_turned *turned);

/* ---- Counters ---- */

/* The places of a tree: the device itself, its root, and the classes. */
enum { QTREE_TOP = 0, QTREE_ROOT = 1, QTREE_CLASS = 2 };

/* Reads the counters of a place. A tbf, drr or fq_codel may hold the packet that it sends next. A held packet is queued
 * there and above, and sent by the qdiscs below: the class of a drr has a packet as sent that the drr still holds.
 *
 * place         QTREE_TOP: the device itself; QTREE_ROOT: its root's qdisc; QTREE_CLASS: the qdisc in the class
 *               major:minor
 * major, minor  the class, 1 to 0xfffe and 1 to 0xffff, read only with QTREE_CLASS. In lines of tc both are
 *               hexadecimal: 1:10 is 1 and 0x10.
 * row           the counters
 *
 * Returns
 *   QTREE_DONE          *row has the counters
 *   QTREE_NOTHING       there is no such place
 *   QTREE_OUT_OF_RANGE  an argument is out of its range
 *   QTREE_IS_CLOSED     the device is closed */
qtree_code qtree_stats(const qtree_device *device, uint32_t place, uint16_t major, uint16_t minor, qtree_row *row);

/* Reads when the oldest packet that is queued in a place arrived. The packets of a place are those of its qdisc and of
 * all qdiscs below it, including packets that these qdiscs hold (see qtree_stats).
 *
 * place, major, minor  as for qtree_stats
 * moment               when that packet arrived. No packet of the place has waited longer. A packet of a ring arrived
 *                      when it was taken in.
 *
 * Returns
 *   QTREE_DONE          *moment is that time
 *   QTREE_NOTHING       nothing is queued in the place, or there is no such place
 *   QTREE_OUT_OF_RANGE  an argument is out of its range
 *   QTREE_IS_CLOSED     the device is closed
 * The function looks once at each qdisc in the place, and at each flow of an fq_codel. */
qtree_code qtree_oldest(const qtree_device *device, uint32_t place, uint16_t major, uint16_t minor, uint64_t *moment);

/* Reads the counters of the device itself. Returns QTREE_DONE, or QTREE_IS_CLOSED if the device is closed. */
qtree_code qtree_totals(const qtree_device *device, qtree_row *row);

/* ---- Promises ---- */

/* What a class of a drr is promised while something is queued in it, for any traffic in the other classes. All numbers
 * are rounded against the class. docs/SERVICE.md says more.
 *
 * With a tbf at the root: take two polls that return no packet, the second one t nanoseconds after the first. Between
 * them the class sends more than
 *
 *     rate * t / (8 * 10^9) - slack
 *
 * bytes, if each time the program polls until no packet comes, and is never later than qtree_lateness says
 * (qtree_ready_at says how late a program is).
 *
 * With a drr at the root: link and rate are 0, and the class sends at least the share part / 10^9 of what the root's
 * classes send, less slack.
 *
 * Both hold as long as the qdiscs on the way to the class stay as they are, with all classes and quanta of each drr
 * among them, and no further tbf is added below one at the root. After a change of any of these the promise may be
 * another one. */
typedef struct qtree_promise {
    uint64_t link;  /* the rate of the tbf at the root, in bits a second */
    uint64_t rate;  /* the class's share of that rate, in bits a second, rounded down at each drr on the way */
    uint64_t part;  /* the class's share of a billion bytes, in bytes, rounded down at each drr on the way */
    uint64_t slack; /* the most bytes that the class can fall short of its share */
} qtree_promise;

/* Computes what the class in a place is promised: a share of the link's rate, or of the bytes that the root sends.
 *
 * place, major, minor  as for qtree_stats
 * promise              the promise, if QTREE_DONE is returned
 *
 * Returns
 *   QTREE_DONE          *promise is what the class is promised
 *   QTREE_NOTHING       nothing is promised: the place is no class of a drr; something other than drrs stands between
 *                       it and the root, apart from a tbf at the root; that tbf has another tbf below it; or its burst
 *                       has no room for a packet of the mtu and rate x a nanosecond
 *   QTREE_OUT_OF_RANGE  place, major or minor is out of its range
 *   QTREE_IS_CLOSED     the device is closed
 *
 * docs/SERVICE.md has the conditions and examples.
 *
 * For example, with an mtu of 1514, a tbf with rate 20mbit and burst 1640 at the root, and below it a drr 2: whose
 * classes 2:1 and 2:2 have the quanta 3000 and 1500, qtree_service(&device, QTREE_CLASS, 2, 1, &promise) writes the
 * rate 13333333 and the slack 5532: between two such polls that are a second apart, the class sends more than
 * 1666666 - 5532 bytes. */
qtree_code qtree_service(const qtree_device *device, uint32_t place, uint16_t major, uint16_t minor,
                         qtree_promise *promise);

/* Computes how late polls may be while the promise of qtree_service holds.
 *
 * place, major, minor  as for qtree_stats
 * late                 by how many nanoseconds the program may be late, as qtree_ready_at counts it: the longest time
 *                      t for which a packet of the mtu and rate x (t + a nanosecond) fit into the burst of the tbf at
 *                      the root. UINT64_MAX if a drr is at the root: then polls may come at any time.
 *
 * Returns
 *   QTREE_DONE          *late is that number
 *   QTREE_NOTHING       nothing is promised: qtree_service returns the same
 *   QTREE_OUT_OF_RANGE  place, major or minor is out of its range
 *   QTREE_IS_CLOSED     the device is closed */
qtree_code qtree_lateness(const qtree_device *device, uint32_t place, uint16_t major, uint16_t minor, uint64_t *late);

/* How long a packet of a pfifo or bfifo waits at most, from when it was queued until it has left, for any traffic
 * elsewhere. The fifo is one whose packets no other packet overtakes, or one in a class of a drr. Until the packet has
 * left, the device sends no more bytes than the field bytes says.
 *
 * With a tbf at the root: once the program has polled until no packet came, ns nanoseconds after the packet's arrival
 * or later, the packet has left. So if the program is never late by more than x nanoseconds, as qtree_ready_at counts
 * it, and x is at most late, the packet has left by ns + x. Without a tbf at the root, ns and late are UINT64_MAX.
 *
 * This holds as long as commands take no packet from the qdisc and put none before it, leave a tbf at the root as it
 * is, add no other tbf, and leave the classes of such a drr and their quanta as they are. docs/SERVICE.md says more. */
typedef struct qtree_delay {
    uint64_t bytes; /* including those of the packet */
    uint64_t ns;    /* nanoseconds, rounded up */
    uint64_t late;  /* nanoseconds */
} qtree_delay;

/* Computes how long a packet waits at most in the pfifo or bfifo in a place.
 *
 * place, major, minor  as for qtree_stats
 * delay                the longest wait, if QTREE_DONE is returned
 *
 * The place is the root, a class that is reached by the first bands of prios alone, or a class of a drr at the root; or
 * such a place below a tbf at the root. docs/SERVICE.md has the conditions.
 *
 * Returns
 *   QTREE_DONE          *delay is the longest wait
 *   QTREE_NOTHING       nothing is promised: the place has another qdisc or none; it is reached in another way, as by
 *                       two drrs; a tbf is below the root, and the root is no drr; the burst of a tbf at the root is
 *                       too small, as for qtree_service; or a number would be too large
 *   QTREE_OUT_OF_RANGE  place, major or minor is out of its range
 *   QTREE_IS_CLOSED     the device is closed */
qtree_code qtree_worst(const qtree_device *device, uint32_t place, uint16_t major, uint16_t minor, qtree_delay *delay);

/* The latest time at which the last packet of a pfifo or bfifo leaves, for any traffic elsewhere. The fifo is one whose
 * packets no other packet overtakes, or one in a class of a drr. Until the packet has left, the device sends no more
 * bytes than the field bytes says. A qtree_delay follows from the settings alone; these numbers follow from what is
 * queued, from the turn and the deficits of the drr's classes, and from what is left of the burst of a tbf at the root.
 *
 * With a tbf at the root: once the program has polled until no packet came, at the time `at` or later, the packet has
 * left. So if the program is never late by more than x nanoseconds, as qtree_ready_at counts it, and x is at most late,
 * the packet has left by `at` + x. Without a tbf at the root, `at` and late are UINT64_MAX.
 *
 * This holds as long as commands take no packet from the qdisc and put none before it, leave a tbf at the root as it
 * is, add no other tbf, and leave the classes of such a drr and their quanta as they are. docs/SERVICE.md says more. */
typedef struct qtree_departure {
    uint64_t bytes; /* including those of the packet */
    uint64_t at;    /* a time in nanoseconds, rounded up */
    uint64_t late;  /* nanoseconds */
} qtree_departure;

/* Computes by when the packet leaves that arrives next in the pfifo or bfifo in a place, so that the program can refuse
 * it first if that is too late; or by when the packet leaves that was queued there last.
 *
 * place, major, minor  as for qtree_stats
 * len                  the length of the packet that is to arrive, in bytes, as the len of its qtree_packet; 0 for the
 *                      packet that was queued last
 * departure            by when it has left, if QTREE_DONE is returned, counted from the device's last event: an
 *                      arrival, a poll or a command that was carried out. If the packet arrives t nanoseconds after
 *                      that event, it leaves later by at most t.
 *
 * The place is one for which qtree_worst returns QTREE_DONE. In a class of a drr, the packet has to be the device's
 * next event: after another arrival or poll, other classes may have their turn before it, and the program asks again.
 *
 * To refuse a packet the program has to see it before it arrives: qtree_take_in gives no chance for that.
 * docs/EMBEDDING.md has a program that refuses packets.
 *
 * Returns
 *   QTREE_DONE          *departure is by when the packet leaves if it is queued: the call does not look at the limit.
 *                       If len is 0 and nothing is queued there, bytes is 0, and `at` the time of the last event; in a
 *                       class of a drr, they are then for the bytes that may be sent before the class's turn.
 *   QTREE_NOTHING       nothing is promised, for one of the reasons for which qtree_worst returns this
 *   QTREE_OUT_OF_RANGE  place, major or minor is out of its range
 *   QTREE_IS_CLOSED     the device is closed
 *
 * For example, with a tbf with rate 8mbit at the root, which sends a byte in a microsecond, let 2000 bytes be queued
 * and nothing be left of its burst. Then qtree_latest(&device, QTREE_CLASS, 1, 1, 1000, &departure) writes the bytes
 * 3000, and a time 3,000,000 nanoseconds after the last event.
 *
 * Or let a drr 2: be at the root whose classes 2:1 and 2:2 have the quanta 1000 and 500. Nothing is queued in 2:1,
 * and 2:2 has packets and may send 500 bytes before its next quantum. Then qtree_latest(&device, QTREE_CLASS, 2, 1,
 * 1000, &departure) writes the bytes 1500: 500 that 2:2 may send first, and the packet's. For a packet of 1001 bytes
 * it writes 2001, since the packet waits for a second quantum of its class, and 2:2 may send one more quantum, too. */
qtree_code qtree_latest(const qtree_device *device, uint32_t place, uint16_t major, uint16_t minor, uint16_t len,
                        qtree_departure *departure);

/* ---- The tree ---- */

/* Which text qtree_show writes: that of `tc qdisc show`, `tc -s qdisc show`, `tc class show` or `tc filter show`. */
enum { QTREE_SHOW_QDISCS = 0, QTREE_SHOW_COUNTERS = 1, QTREE_SHOW_CLASSES = 2, QTREE_SHOW_FILTERS = 3 };

/* Writes a text about the tree, such as tc shows. The text has a form of its own, which Linux's tc does not write, and
 * which docs/LANGUAGE.md explains.
 *
 * what    QTREE_SHOW_QDISCS to QTREE_SHOW_FILTERS
 * text    room bytes for the text; no zero byte ends it
 * needed  the length of the text in bytes
 *
 * Returns
 *   QTREE_DONE          the text is written
 *   QTREE_ROOM          room is less than *needed, and nothing is written to text: a call with a room of 0, in which
 *                       text may be null, asks for the length
 *   QTREE_OUT_OF_RANGE  what is out of its range
 *   QTREE_IS_CLOSED     the device is closed
 *   QTREE_MEMORY        an allocation failed */
qtree_code qtree_show(const qtree_device *device, uint32_t what, uint8_t *text, size_t room, size_t *needed);

/* The kinds of qdiscs. */
enum { QTREE_PFIFO = 1, QTREE_BFIFO = 2, QTREE_PRIO = 3, QTREE_TBF = 4, QTREE_DRR = 5, QTREE_FQ_CODEL = 6 };

/* A qdisc: its kind, its place, its counters and its settings. A field that its kind lacks is 0. */
typedef struct qtree_node_view {
    qtree_row row;         /* its counters */
    uint64_t limit;        /* of a pfifo or an fq_codel in packets, of a bfifo or a tbf in bytes */
    uint64_t rate;         /* of a tbf, in bits a second */
    uint64_t target;       /* of an fq_codel, in nanoseconds */
    uint64_t interval;     /* of an fq_codel, in nanoseconds */
    uint32_t burst;        /* of a tbf, in bytes */
    uint32_t flows;        /* of an fq_codel: the number of its flows */
    uint32_t new_flows;    /* of an fq_codel: how many of them are in the list of new flows now */
    uint32_t old_flows;    /* and how many in the list of old flows; the others have no packets, and no turn */
    uint32_t quantum;      /* of an fq_codel, in bytes */
    uint32_t drop_batch;   /* of an fq_codel, in packets */
    uint32_t kind;         /* QTREE_PFIFO to QTREE_FQ_CODEL */
    uint32_t place;        /* QTREE_ROOT or QTREE_CLASS */
    uint16_t handle;       /* its major number; 0 for a leaf that no line added */
    uint16_t parent_major; /* the class in which it is; 0 at the root */
    uint16_t parent_minor;
    uint16_t mtu;        /* of an fq_codel: CoDel drops nothing while this many bytes or fewer are queued */
    uint8_t ecn;         /* of an fq_codel: 1 if CoDel marks, else 0 */
    uint8_t bands;       /* of a prio */
    uint8_t priomap[16]; /* of a prio: the band of each priority, where 0 is the first band */
} qtree_node_view;

/* Reads one qdisc.
 *
 * index  counts from 0, in the order of `tc qdisc show`: each qdisc comes before those below it. Only commands change
 *        the indexes.
 * view   the qdisc, if QTREE_DONE is returned
 *
 * Returns
 *   QTREE_DONE       *view is the qdisc
 *   QTREE_NOTHING    the index is past the last qdisc
 *   QTREE_IS_CLOSED  the device is closed */
qtree_code qtree_node(const qtree_device *device, size_t index, qtree_node_view *view);

/* A class of a prio, a tbf or a drr. */
typedef struct qtree_class_view {
    uint64_t deficit; /* of an active class of a drr: what it may send before the next quantum, in bytes */
    uint32_t quantum; /* of a class of a drr, in bytes */
    uint32_t kind;    /* the kind of its qdisc */
    uint16_t major;   /* its name, major:minor */
    uint16_t minor;
    uint8_t active; /* of a class of a drr: 1 if it is active, which is when packets wait there, else 0 */
} qtree_class_view;

/* Reads one class of a qdisc.
 *
 * index  the index of the qdisc, as for qtree_node
 * which  the index of the class: it counts from 0, in the order of `tc class show`
 * view   the class, if QTREE_DONE is returned
 *
 * Only a qdisc with a handle has classes. The counters of a class are those of the qdisc in it, which qtree_stats
 * reads; qtree_node says in which class a qdisc is.
 *
 * Returns
 *   QTREE_DONE       *view is the class
 *   QTREE_NOTHING    an index is past the last qdisc, or past its last class
 *   QTREE_IS_CLOSED  the device is closed */
qtree_code qtree_class(const qtree_device *device, size_t index, size_t which, qtree_class_view *view);

/* ---- Rings ---- */

/* Opens both ends of a ring, through which one sender passes packets to a device. A ring belongs to no device: its
 * packets arrive at the device with which qtree_take_in is called.
 *
 * port, outlet  closed ends, as QTREE_CLOSED initializes them
 * index         is written into each packet of the ring as its port
 * places        how many packets the ring holds, 1 to 65536
 *
 * Returns
 *   QTREE_DONE          both ends are open
 *   QTREE_OUT_OF_RANGE  places is out of its range
 *   QTREE_IS_OPEN       one end is open already
 *   QTREE_MEMORY        an allocation failed
 * On an error nothing has changed.
 *
 * For example, a sender waits for a place, and the device's thread takes packets in before a poll:
 *
 *     while (qtree_offer(&port, &packet) == QTREE_FULL) sched_yield();
 *
 *     qtree_take_in(&device, &outlet, now, 64, &taken); */
qtree_code qtree_ring_open(qtree_port *port, qtree_outlet *outlet, uint32_t index, size_t places);

/* Places a copy of a packet in the ring. In the copy, port is the index of the port, and number is how many packets the
 * port has placed, including this one. The packet itself stays as it is. So of the sender's own numbers buf alone comes
 * back.
 *
 * The call takes no lock, allocates nothing and waits for no thread. Another thread may use the outlet meanwhile.
 *
 * The call wakes no thread either. If the device's thread sleeps, the sender signals it after the call, for example by
 * an eventfd, and that thread clears the signal before it takes packets in: docs/EMBEDDING.md has such a program.
 *
 * What the sender wrote before the call, such as the packet's bytes, can be read by the thread that takes the packet
 * in, and by each thread that polls or reaps it: the ring publishes a packet by a sequentially consistent atomic, which
 * qtree_take_in reads first. To give the buffer back to the sender, a program needs a means of its own.
 *
 * Returns
 *   QTREE_DONE          the packet is in the ring
 *   QTREE_FULL          no place is free; places become free as packets are taken in
 *   QTREE_OUT_OF_RANGE  a field of the packet is out of its range
 *   QTREE_IS_CLOSED     the port is closed
 * On an error nothing has changed, and the program keeps the packet. */
qtree_code qtree_offer(qtree_port *port, const qtree_packet *packet);

/* Places packets in the ring in order, each as qtree_offer does, up to the first that is not placed. The thread that
 * has the outlet sees up to 16 of them at once, so that each costs less than an offer of its own.
 *
 * packets  count descriptors
 * placed   how many of them are placed; the others are as if they had not been offered
 *
 * Returns
 *   QTREE_DONE          all packets are placed
 *   QTREE_FULL          no place is free for the next packet
 *   QTREE_OUT_OF_RANGE  a field of the next packet is out of its range
 *   QTREE_IS_CLOSED     the port is closed */
qtree_code qtree_offer_many(qtree_port *port, const qtree_packet *packets, size_t count, size_t *placed);

/* Takes packets out of a ring: they arrive at the device in order, all that wait, but at most as many as most says.
 * Each leaves the ring when it has arrived. A packet that the device loses on arrival counts too, and is to be reaped.
 *
 * The call uses the device and the outlet. The sender may use the port meanwhile.
 *
 * now    the time
 * most   how many packets are taken at most
 * taken  how many packets arrived
 *
 * Returns
 *   QTREE_DONE          these packets arrived
 *   QTREE_OUT_OF_RANGE  the time is out of its range
 *   QTREE_IS_CLOSED     the device or the outlet is closed
 *   QTREE_MEMORY        an allocation failed for the next packet, which stays in the ring; those before it have
 *                       arrived */
qtree_code qtree_take_in(qtree_device *device, qtree_outlet *outlet, uint64_t now, size_t most, size_t *taken);

/* Read how many packets and bytes a port has placed so far, and how many were taken in at an outlet so far. Once the
 * sender has ended and its ring is empty, both are equal. (The share of a class, in a qtree_promise, is something else:
 * what the class gets of a rate, or of the bytes that the root sends.)
 *
 * Return QTREE_DONE, or QTREE_IS_CLOSED if the end is closed. */
qtree_code qtree_port_share(const qtree_port *port, qtree_count *share);
qtree_code qtree_outlet_share(const qtree_outlet *outlet, qtree_count *share);

/* Close one end of a ring. Either end may be closed first, before or after the device. If the end is closed already,
 * nothing happens.
 *
 * Packets in the ring of a closed port can still be taken in. Packets in the ring of a closed outlet are discarded,
 * and are not losses; its port can go on offering until the ring is full. The ring's memory is freed with its second
 * end. */
void qtree_port_close(qtree_port *port);
void qtree_outlet_close(qtree_outlet *outlet);

/* ---- Events and replay ---- */

/* Reads how many events there were. The events of a device are the arrivals, the polls and the commands that it
 * accepts. A poll that returns no packet is an event too.
 *
 * events    the number of all events
 * recorded  how many of them the recorder has, which are the first of them
 *
 * Returns QTREE_DONE, or QTREE_IS_CLOSED if the device is closed. */
qtree_code qtree_events(const qtree_device *device, uint64_t *events, size_t *recorded);

/* An event, as the recorder and the log of the last events have it. */
enum { QTREE_ARRIVED = 0, QTREE_POLLED = 1, QTREE_COMMANDED = 2 };
typedef struct qtree_event {
    qtree_packet packet; /* of an arrival; otherwise all 0 */
    uint64_t moment;     /* the time at which it counted, in nanoseconds */
    uint32_t kind;       /* QTREE_ARRIVED, QTREE_POLLED or QTREE_COMMANDED */
} qtree_event;

/* Reads one recorded event.
 *
 * index  counts from 0
 * event  the event, if QTREE_DONE is returned
 *
 * Returns
 *   QTREE_DONE       *event is the event
 *   QTREE_NOTHING    there is no such event
 *   QTREE_IS_CLOSED  the device is closed */
qtree_code qtree_recorded(const qtree_device *device, size_t index, qtree_event *event);

/* Writes one recorded event as the line of a script, such as "poll 1". A command becomes a line of tc for a device
 * named eth0. The line of a packet lacks port, number and buf, and the addresses if the packet is not IP.
 *
 * index   counts from 0
 * text    room bytes for the line; neither a newline nor a zero byte ends it
 * needed  the length of the line in bytes, at most 1024
 *
 * Returns
 *   QTREE_DONE       the line is written
 *   QTREE_NOTHING    there is no such event
 *   QTREE_ROOM       room is less than *needed, and nothing is written to text
 *   QTREE_IS_CLOSED  the device is closed */
qtree_code qtree_recorded_line(const qtree_device *device, size_t index, uint8_t *text, size_t room, size_t *needed);

/* Writes the script of all recorded events: their lines in order, and lines `at N` that set the time, each with a
 * newline behind it.
 *
 * With the device's mtu and txqueuelen, `qtree-play` does with this script what the device did, and so does `qtree
 * play` with a script of at most 16,777,216 bytes, some 240,000 packets (docs/EMBEDDING.md). The script numbers packets
 * from 1 in the order of their arrivals, with port 0, and their number is their buf.
 *
 * text    room bytes for the script; no zero byte ends it
 * needed  the length of the script in bytes
 *
 * The call allocates room for the whole script, which grows by doubling, and frees it.
 *
 * Returns
 *   QTREE_DONE       the script is written
 *   QTREE_ROOM       room is less than *needed, and nothing is written to text: a call with a room of 0, in which
 *                    text may be null, asks for the length
 *   QTREE_IS_CLOSED  the device is closed
 *   QTREE_MEMORY     an allocation failed */
qtree_code qtree_recorded_script(const qtree_device *device, uint8_t *text, size_t room, size_t *needed);

/* Keeps the last events from now on: if all places are taken, a new event takes the place of the oldest. The recorder
 * has only the first events; a program that runs for a long time asks what happened last (docs/EMBEDDING.md).
 *
 * places  how many events are kept, 0 to 1000000. With 0 none are kept, which is how a device begins. Each poll takes a
 *         place, also one that returns no packet.
 *
 * The events are those that qtree_events counts, by whichever function, including arrivals from rings. The call
 * allocates their memory, and no call that notes an event allocates. Events that an earlier call kept are gone.
 *
 * Returns
 *   QTREE_DONE          the events are kept from now on
 *   QTREE_OUT_OF_RANGE  places is out of its range
 *   QTREE_IS_CLOSED     the device is closed
 *   QTREE_MEMORY        an allocation failed
 * On an error nothing has changed: the device goes on as before, with the events that it has. */
qtree_code qtree_keep_last(qtree_device *device, uint32_t places);

/* Reads how many events were noted since qtree_keep_last, and how many of them, the last ones, are kept. Both are 0
 * if no events are to be kept. Returns QTREE_DONE, or QTREE_IS_CLOSED if the device is closed. */
qtree_code qtree_last_noted(const qtree_device *device, uint64_t *noted, size_t *kept);

/* Read one of the last events, as qtree_recorded reads a recorded one, and write it as a line, as qtree_recorded_line
 * does. index counts from 0, which is the oldest event that is kept. A line does not say when the event was:
 * qtree_last_event does. Together the lines are not a script that plays the session again, since they begin in the
 * middle of it.
 *
 * Return QTREE_DONE, QTREE_NOTHING or QTREE_IS_CLOSED as those do; qtree_last_line also returns QTREE_ROOM. */
qtree_code qtree_last_event(const qtree_device *device, size_t index, qtree_event *event);
qtree_code qtree_last_line(const qtree_device *device, size_t index, uint8_t *text, size_t room, size_t *needed);

/* ---- Names and sentences ---- */

/* Return the name of a code (reports write causes and refusals by these names), of a fault of a line, and of a kind
 * of qdisc. The names are static. An unknown number has the name "Unknown" or "unknown". */
static inline const char *qtree_code_name(qtree_code code) {
    switch (code) {
    case QTREE_DONE: return "Done"; case QTREE_LOST_TOO_LONG: return "TooLong";
    case QTREE_LOST_NO_CLASS: return "NoClass"; case QTREE_LOST_OVER_LIMIT: return "OverLimit";
    case QTREE_LOST_CODEL: return "CoDel"; case QTREE_LOST_FAT_FLOW: return "FatFlow";
    case QTREE_LOST_PURGED: return "Purged"; case QTREE_REFUSED_NO_PARENT: return "NoParent";
    case QTREE_REFUSED_EXISTS: return "Exists"; case QTREE_REFUSED_NO_QDISC: return "NoQdisc";
    case QTREE_REFUSED_HANDLE_TAKEN: return "HandleTaken"; case QTREE_REFUSED_NOT_CLASSFUL: return "NotClassful";
    case QTREE_REFUSED_NO_CLASS: return "NoClass"; case QTREE_REFUSED_BUSY: return "Busy";
    case QTREE_REFUSED_CANNOT_CHANGE: return "CannotChange"; case QTREE_REFUSED_TOO_DEEP: return "TooDeep";
    case QTREE_REFUSED_TOO_MANY: return "TooMany"; case QTREE_REFUSED_SMALL_BURST: return "SmallBurst";
    case QTREE_REFUSED_NO_FILTER: return "NoFilter"; case QTREE_IDLE: return "Idle"; case QTREE_LATER: return "Later";
    case QTREE_NOTHING: return "Nothing"; case QTREE_FULL: return "Full"; case QTREE_FAULTY: return "Faulty";
    case QTREE_NO_COMMAND: return "NoCommand"; case QTREE_OUT_OF_RANGE: return "OutOfRange";
    case QTREE_ROOM: return "Room"; case QTREE_UNDONE: return "Undone";
    case QTREE_IS_CLOSED: return "IsClosed"; case QTREE_IS_OPEN: return "IsOpen"; case QTREE_MEMORY: return "Memory";
    default: return "Unknown";
    }
}

static inline const char *qtree_fault_name(uint32_t number) {
    switch (number) {
    case QTREE_FAULT_UNKNOWN_WORD: return "UnknownWord"; case QTREE_FAULT_MISSING: return "Missing";
    case QTREE_FAULT_BAD_NUMBER: return "BadNumber"; case QTREE_FAULT_OUT_OF_RANGE: return "OutOfRange";
    case QTREE_FAULT_TWICE: return "Twice"; case QTREE_FAULT_BAD_UTF8: return "BadUtf8";
    default: return "Unknown";
    }
}

static inline const char *qtree_kind_name(uint32_t kind) {
    switch (kind) {
    case QTREE_PFIFO: return "pfifo"; case QTREE_BFIFO: return "bfifo"; case QTREE_PRIO: return "prio";
    case QTREE_TBF: return "tbf"; case QTREE_DRR: return "drr"; case QTREE_FQ_CODEL: return "fq_codel";
    default: return "unknown";
    }
}

/* Returns a sentence on a code: what happened, and what the program, or the writer of the line, can do. The sentence
 * is static. */
static inline const char *qtree_code_sentence(qtree_code code) {
    switch (code) {
    case QTREE_DONE: return "The call did what it was called for.";
    case QTREE_LOST_TOO_LONG:
        return "The packet is longer than the mtu or than a tbf's burst: send shorter packets, or raise that limit.";
    case QTREE_LOST_NO_CLASS: return "No filter of a drr takes the packet: add a filter that matches it.";
    case QTREE_LOST_OVER_LIMIT: return "The packet's queue is at its limit: send less, or raise the limit.";
    case QTREE_LOST_CODEL:
        return "Packets waited too long, so CoDel dropped this one: its sender slows down by itself.";
    case QTREE_LOST_FAT_FLOW:
        return "An fq_codel was over its limit, and dropped from its largest flow: send less, or raise the limit.";
    case QTREE_LOST_PURGED:
        return "A command removed the packet's qdisc: free the packet's buffer, or let the packet arrive again.";
    case QTREE_REFUSED_NO_PARENT: return "No qdisc has the parent's major number: add that qdisc first.";
    case QTREE_REFUSED_EXISTS: return "A qdisc, or the class, is there already: change it, or remove it first.";
    case QTREE_REFUSED_NO_QDISC: return "No qdisc that was added has this place and handle: add it first.";
    case QTREE_REFUSED_HANDLE_TAKEN: return "Another qdisc has this handle: choose another one.";
    case QTREE_REFUSED_NOT_CLASSFUL: return "The parent has no classes, or takes no filters: choose another parent.";
    case QTREE_REFUSED_NO_CLASS: return "There is no such class: add it first, or name another one.";
    case QTREE_REFUSED_BUSY: return "A filter leads to this class: remove the filter first.";
    case QTREE_REFUSED_CANNOT_CHANGE: return "This cannot be changed: remove the qdisc, and add it again.";
    case QTREE_REFUSED_TOO_DEEP: return "The tree would have more than eight levels: choose a parent further up.";
    case QTREE_REFUSED_TOO_MANY:
        return "There would be more than 256 qdiscs, or more than 256 filters at one qdisc: remove some first.";
    case QTREE_REFUSED_SMALL_BURST:
        return "The burst is below both the mtu and the tbf's present burst: choose a larger one.";
    case QTREE_REFUSED_NO_FILTER:
        return "The qdisc has no filter with this prio: list its filters to see which prios it has.";
    case QTREE_IDLE: return "No packet is queued: poll again when one has arrived.";
    case QTREE_LATER:
        return "Packets are queued, but none may go yet: poll again at the time that qtree_ready_at returns.";
    case QTREE_NOTHING:
        return "What the call asks for does not exist, no longer exists, or is not promised: go on without it.";
    case QTREE_FULL: return "The ring is full: offer the packet again after some packets have been taken in.";
    case QTREE_FAULTY: return "The line cannot be read: qtree_explain says which word is wrong, and why.";
    case QTREE_NO_COMMAND:
        return "The line is not a command: qtree_explain says what it is, and which call does what it asks for.";
    case QTREE_OUT_OF_RANGE: return "An argument is out of its range: qtree_out_of_range checks a packet and the time.";
    case QTREE_ROOM: return "The memory that the program passed is too small: call again with as much as is needed.";
    case QTREE_UNDONE:
        return "A line of the file cannot be carried out, so none was: correct the reported lines, and call again.";
    case QTREE_IS_CLOSED: return "The device, the port or the outlet is closed: open it first.";
    case QTREE_IS_OPEN: return "The device, the port or the outlet is open already: close it first.";
    case QTREE_MEMORY: return "An allocation failed: free some memory, and call again for what was not done.";
    default: break;
    }
    if (qtree_is_loss(code)) return "The packet is lost, for a cause that is newer than this header.";
    return "This header does not know the code: the library is newer, or the number is not a code.";
}

/* Writes one of the names above, for a program in another language than C or C++.
 *
 * what    QTREE_NAME_CODE, QTREE_NAME_FAULT or QTREE_NAME_KIND
 * number  the code, the fault or the kind
 * text    room bytes for the name; no zero byte ends it
 * needed  the length of the name in bytes
 *
 * Returns
 *   QTREE_DONE          the name is written
 *   QTREE_ROOM          room is less than *needed, and nothing is written to text
 *   QTREE_OUT_OF_RANGE  what is out of its range */
enum { QTREE_NAME_CODE = 0, QTREE_NAME_FAULT = 1, QTREE_NAME_KIND = 2 };
qtree_code qtree_name_of(uint32_t what, uint32_t number, uint8_t *text, size_t room, size_t *needed);

/* Writes why qtree_command did not carry out a line, as `qtree play --explain` does: the line with its number, a mark
 * under the word at which it failed, and a sentence on what to do, each with a newline behind it. If qtree_command
 * returned QTREE_NO_COMMAND, the sentence says what the line is, and which call does what it asks for. The mark alone
 * says at which word a command is refused, since only a line that cannot be read has a qtree_fault.
 * docs/LANGUAGE.md explains the refusals.
 *
 * line    line_len bytes: the line that was passed to qtree_command
 * number  any number; "line N: " with this number is written before the line. For a line that is from no file, 1 does.
 * code    what qtree_command returned: QTREE_REFUSED_.., QTREE_MEMORY, QTREE_FAULTY or QTREE_NO_COMMAND
 * fault   the fault that qtree_command wrote; it is read only if the code is QTREE_FAULTY, and is never null
 * text    room bytes for the text; no zero byte ends it
 * needed  the length of the text in bytes
 *
 * Returns
 *   QTREE_DONE          the text is written
 *   QTREE_ROOM          room is less than *needed, and nothing is written to text: a call with a room of 0, in which
 *                       text may be null, asks for the length
 *   QTREE_OUT_OF_RANGE  there is nothing to explain: it is another code, or there is no such fault, or the code is
 *                       QTREE_NO_COMMAND and the line is a command or cannot be read
 *   QTREE_MEMORY        an allocation failed
 *
 * The call does not check that the line has this fault, or that its command would be refused so: with another fault
 * than qtree_command wrote, the sentence may be wrong. The mark is under the word with the fault's index: under the
 * first word if the index is 0, and behind the line if the index is past its last word. A number that is not one of
 * QTREE_FAULT_.. is no fault. */
qtree_code qtree_explain(const uint8_t *line, size_t line_len, uint64_t number, qtree_code code,
                         const qtree_fault *fault, uint8_t *text, size_t room, size_t *needed);

/* The rest is for a test that this header and the library agree. */

/* qtree_layout_of writes the sizes of some structs in bytes. The other two functions fill the structs that they take:
 * the first field gets the value 1, the next one 2, and so on, in the order in which the fields are declared. A struct
 * in a struct is filled field by field. */
typedef struct qtree_layout {
    size_t device;
    size_t settings;
    size_t packet;
    size_t loss;
    size_t row;
    size_t event;
} qtree_layout;
void qtree_layout_of(qtree_layout *layout);
void qtree_sample(qtree_settings *settings, qtree_loss *loss, qtree_row *row, qtree_event *event);
void qtree_sample_fault(qtree_fault *fault);

/* Returns the size in bytes of any struct of this header, including structs that later versions add, or 0 for another
 * number. */
enum {
    QTREE_TYPE_DEVICE = 0,
    QTREE_TYPE_SETTINGS = 1,
    QTREE_TYPE_PACKET = 2,
    QTREE_TYPE_LOSS = 3,
    QTREE_TYPE_ROW = 4,
    QTREE_TYPE_EVENT = 5,
    QTREE_TYPE_FAULT = 6,
    QTREE_TYPE_COUNT = 7,
    QTREE_TYPE_PORT = 8,
    QTREE_TYPE_OUTLET = 9,
    QTREE_TYPE_LAYOUT = 10,
    QTREE_TYPE_SENT = 11,
    QTREE_TYPE_PROMISE = 12,
    QTREE_TYPE_NODE_VIEW = 13,
    QTREE_TYPE_CLASS_VIEW = 14,
    QTREE_TYPE_DELAY = 15,
    QTREE_TYPE_REPORT = 16,
    QTREE_TYPE_UNDONE = 17,
    QTREE_TYPE_DEPARTURE = 18,
    QTREE_TYPE_LOST = 19,
    QTREE_TYPE_TURNED = 20
};
size_t qtree_size_of(uint32_t what);

#ifdef __cplusplus
}
#endif
#endif
