package qtree

// #include "batch.h"
//
// /* QTREE_DEFAULTS is an initializer, which cgo does not see. */
// static qtree_settings default_settings(void) { return (qtree_settings)QTREE_DEFAULTS; }
import "C"

import (
	"math"
	"sync"
	"unsafe"
)

// MomentMax is the latest time that a call accepts: 2^62 nanoseconds.
const MomentMax = uint64(C.QTREE_MOMENT_MAX)

// Never is the time of a turn after which there is nothing to wait for.
const Never = uint64(math.MaxUint64)

// Settings are what a device is opened with. A field that is 0 has the library's default.
type Settings struct {
	MTU        uint16 // the length of the longest packet that is taken; the default is 1514
	TxQueueLen uint32 // how many packets a pfifo holds for which no limit is given; the default is 1000
	Recorder   uint32 // how many events are recorded, at most 1000000
}

// Device is one scheduler. One goroutine at a time uses it, and it is not copied.
type Device struct {
	device C.qtree_device
	// What C writes of one packet lies here, since memory whose address goes to C does not stay on a goroutine's stack.
	packet C.qtree_packet
	frame  C.qtree_batch_frame
	cause  C.uint8_t
	sent   C.qtree_sent
	loss   C.qtree_loss
	turned C.qtree_turned
	count  C.size_t
	moment C.uint64_t
	_      [0]sync.Mutex // go vet reports a copy
}

// Open opens a device with a pfifo at its root. Its memory is C's: Close frees it.
func Open(settings Settings) (*Device, error) {
	wanted := C.default_settings()
	if settings.MTU != 0 {
		wanted.mtu = C.uint16_t(settings.MTU)
	}
	if settings.TxQueueLen != 0 {
		wanted.txqueuelen = C.uint32_t(settings.TxQueueLen)
	}
	wanted.recorder = C.uint32_t(settings.Recorder)
	device := new(Device)
	if err := errorOf(C.qtree_open(&device.device, &wanted)); err != nil {
		return nil, err
	}
	return device, nil
}

// Close closes the device and frees its memory. Packets that are queued, and losses that wait, are discarded: to get their buffers back,
// run "tc qdisc del dev wan root" first, and reap. Closing a closed device does nothing.
func (d *Device) Close() { C.qtree_close(&d.device) }

// Arrive lets a packet arrive. The device copies it. It is queued if the cause is Kept; otherwise it is lost, and its buffer is free once
// the loss is reaped. On an error it has not arrived, and stays with the program.
func (d *Device) Arrive(packet *Packet, now uint64) (Cause, error) {
	d.packet = *(*C.qtree_packet)(unsafe.Pointer(packet))
	return arrived(C.qtree_arrive(&d.device, &d.packet, C.uint64_t(now)))
}

// ArriveMany lets packets arrive in order, all at the same time, by one call of C. causes has a place for each: causes[i] is Kept, or why
// packets[i] is lost. It returns how many arrived. On an error the packets from there on have not arrived.
func (d *Device) ArriveMany(packets []Packet, causes []uint8, now uint64) (int, error) {
	if len(causes) < len(packets) {
		return 0, ErrRoom
	}
	if len(packets) == 0 {
		return 0, nil
	}
	at := (*C.qtree_packet)(unsafe.Pointer(&packets[0]))
	code := C.qtree_arrive_many(&d.device, at, C.size_t(len(packets)), first(causes), C.size_t(len(causes)), &d.count, C.uint64_t(now))
	return int(d.count), errorOf(code)
}

// ArriveFrame lets the packet arrive whose IP header begins at frame.Offset of bytes: what ReadHead with this seed and Arrive do.
func (d *Device) ArriveFrame(bytes []byte, frame Frame, seed uint32, now uint64) (Cause, error) {
	d.frame = *(*C.qtree_batch_frame)(unsafe.Pointer(&frame))
	code := C.qtree_batch_frames(&d.device, first(bytes), C.size_t(len(bytes)), &d.frame, 1, C.uint32_t(seed), C.uint64_t(now),
		&d.cause, &d.count)
	if code != C.QTREE_DONE {
		return Kept, Code(code)
	}
	return Cause(d.cause), nil
}

// ArriveFrames lets packets arrive in order, all at the same time, whose bytes are in one block, by one call of C. It returns what
// ArriveMany does; ErrOutOfRange also if the next frame is not within the block.
func (d *Device) ArriveFrames(bytes []byte, frames []Frame, causes []uint8, seed uint32, now uint64) (int, error) {
	if len(causes) < len(frames) {
		return 0, ErrRoom
	}
	if len(frames) == 0 {
		return 0, nil
	}
	at := (*C.qtree_batch_frame)(unsafe.Pointer(&frames[0]))
	code := C.qtree_batch_frames(&d.device, first(bytes), C.size_t(len(bytes)), at, C.size_t(len(frames)), C.uint32_t(seed),
		C.uint64_t(now), first(causes), &d.count)
	return int(d.count), errorOf(code)
}

// Poll takes the packet whose turn it is, and says whether there was one. If there was none, ReadyAt says when to poll again. CoDel may
// lose other packets in a poll, which then wait to be reaped.
func (d *Device) Poll(now uint64) (Sent, bool, error) {
	switch code := C.qtree_poll_buf(&d.device, C.uint64_t(now), &d.sent); code {
	case C.QTREE_DONE:
		return *(*Sent)(unsafe.Pointer(&d.sent)), true, nil
	case C.QTREE_IDLE, C.QTREE_LATER:
		return Sent{}, false, nil
	default:
		return Sent{}, false, Code(code)
	}
}

// ReadyAt returns the time before which no poll gives a packet, as long as no packet arrives and no command comes; false if no poll ever
// will. A poll at that time may still give none, and ReadyAt then returns a later time.
func (d *Device) ReadyAt() (uint64, bool) {
	code := C.qtree_ready_at(&d.device, &d.moment)
	return uint64(d.moment), code == C.QTREE_DONE
}

// Reap hands out the oldest loss that was not handed out yet, and says whether there was one. Losses that wait keep memory.
func (d *Device) Reap() (Lost, bool) {
	if C.qtree_reap(&d.device, &d.loss) != C.QTREE_DONE {
		return Lost{}, false
	}
	packet := &d.loss.packet
	return Lost{Number: uint64(packet.number), Port: uint32(packet.port), Buf: uint32(packet.buf), Cause: Cause(d.loss.cause)}, true
}

// Turned is what a turn did.
type Turned struct {
	Sent  int    // how many packets were sent
	Lost  int    // how many losses were reaped
	Again uint64 // when to take the next turn, if no packet arrives before; Never if there is nothing to wait for
}

// Turn polls while a packet is due at now and sent has room, then reaps while lost has room, by one call of C. If there may be more to
// send or to reap, Again is not after now: the program takes another turn.
func (d *Device) Turn(now uint64, sent []Sent, lost []Lost) (Turned, error) {
	var polled *C.qtree_sent
	var reaped *C.qtree_lost
	if len(sent) > 0 {
		polled = (*C.qtree_sent)(unsafe.Pointer(&sent[0]))
	}
	if len(lost) > 0 {
		reaped = (*C.qtree_lost)(unsafe.Pointer(&lost[0]))
	}
	code := C.qtree_turn(&d.device, C.uint64_t(now), polled, C.size_t(len(sent)), reaped, C.size_t(len(lost)), &d.turned)
	turned := Turned{Sent: int(d.turned.sent), Lost: int(d.turned.lost), Again: uint64(d.turned.again)}
	if len(lost) > 0 && turned.Lost == len(lost) && turned.Again > now {
		turned.Again = now
	}
	return turned, errorOf(code)
}
