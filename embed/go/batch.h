/* Calls over many packets, each made of calls of qtree.h, for programs in languages in which each call of C costs as much as a packet does.
 *
 * cgo compiles batch.c into a program in Go, and `make -C embed/c` compiles it into the shared library libqtree-batch, which the package
 * for Python loads. These functions are plain C, tested and not proved; what they call is proved. */
#ifndef QTREE_BATCH_H
#define QTREE_BATCH_H

#include <qtree.h>

/* A frame: where its IP header begins in a block of bytes, how many bytes from there on are the frame's, and what the device is given. */
typedef struct qtree_batch_frame {
    uint64_t number;
    uint64_t offset;
    uint32_t buf;
    uint16_t count;
    uint16_t len;
} qtree_batch_frame;

/* Frames arrive in order, all at the same time, each as by qtree_read_head with this seed and qtree_arrive. codes has count places.
 *
 * Returns what qtree_arrive_many does, and says in *done how many arrived; QTREE_OUT_OF_RANGE also if the next frame is not within the size
 * bytes at base. */
qtree_code qtree_batch_frames(qtree_device *device, const uint8_t *base, size_t size, const qtree_batch_frame *frames, size_t count,
                              uint32_t seed, uint64_t now, uint8_t *codes, size_t *done);

/* Hashes the flow of each packet, as qtree_hash does. *done says how many were hashed; the next one is out of range if they are fewer. */
qtree_code qtree_batch_hash(qtree_packet *packets, size_t count, uint32_t seed, size_t *done);

/* Returns the sentence of qtree_code_sentence, for a program in a language that does not compile the header. */
const char *qtree_batch_sentence(qtree_code code);

/* What became of a packet. */
typedef struct qtree_batch_fate {
    uint64_t at;     /* when it was sent or lost; the end if it is still queued */
    qtree_code code; /* QTREE_DONE if it was sent, QTREE_LOST_.. if it was lost, QTREE_LATER if it is still queued */
    uint8_t ecn;     /* its ECN codepoint when it was sent: 3 if it was marked */
} qtree_batch_fate;

/* Each packet arrives at its time, and is sent as soon as the device and the link allow it. What arrives at a time comes before the polls
 * at this time. The number of each packet is lost: it is the packet's index here.
 *
 * times  count times in nanoseconds, none before that before it
 * rate   the rate of the link in bits a second, which is free again when a packet's len has gone out at this rate; 0 for a link that takes
 *        each packet at once
 * end    after this time nothing is polled; UINT64_MAX to go on until nothing is due
 * fates  count places: what became of each packet that arrived
 * done   how many packets arrived
 *
 * Returns QTREE_DONE; or the error of the next packet's arrival, QTREE_OUT_OF_RANGE also if its time is before that before it, and then
 * nothing is known of the packets from *done on. The device has to be empty at first. */
qtree_code qtree_batch_simulate(qtree_device *device, const qtree_packet *packets, const uint64_t *times, size_t count, uint64_t rate,
                                uint64_t end, qtree_batch_fate *fates, size_t *done);

#endif
