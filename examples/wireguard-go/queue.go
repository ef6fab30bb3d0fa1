package main

import (
	"crypto/rand"
	"encoding/binary"
	"fmt"
	"sync"

	"golang.zx2c4.com/wireguard/tun"
	"qtree"
)

const (
	offset = 16          // the TUN device of wireguard-go wants so much room before a packet
	burst  = 16          // how many packets a turn sends at most
	stall  = 100_000_000 // after so many nanoseconds nothing is in flight any more
)

// queue is a TUN device whose packets wait in a device of qtree before wireguard-go reads them. It changes nothing of wireguard-go.
type queue struct {
	tun.Device
	overhead int           // bytes of headers that count beside a packet's own
	most     int           // how many packets may be in flight, from here to the socket; 0 is no limit
	wake     chan struct{} // a reader may have something to do
	alarm    alarm

	lock     sync.Mutex // guards what follows
	device   *qtree.Device
	seed     uint32
	buffers  [][]byte // the packets that wait, by Buf
	free     []uint32
	ready    []uint32 // polled, and not read yet
	inFlight int
	sentAt   uint64 // when a packet was last read or sent
	sent     [burst]qtree.Sent
	lost     [burst]qtree.Lost
	losses   [qtree.CauseMost + 1]uint64
	failed   uint64 // arrivals for which an allocation failed
	err      error  // of the TUN device: it has been closed
}

// newQueue shapes what comes out of a TUN device, by a file of lines of tc.
func newQueue(inner tun.Device, file string, mtu, overhead, most int) (*queue, error) {
	device, err := qtree.Open(qtree.Settings{MTU: uint16(mtu + overhead)})
	if err != nil {
		return nil, err
	}
	if _, err := device.SetUp(file, monotonic()); err != nil {
		return nil, err
	}
	q := &queue{Device: inner, overhead: overhead, most: most, device: device, wake: make(chan struct{}, 1)}
	var seed [4]byte
	if _, err := rand.Read(seed[:]); err != nil {
		return nil, err
	}
	q.seed = binary.LittleEndian.Uint32(seed[:])
	if q.alarm, err = newAlarm(q.ring); err != nil {
		return nil, err
	}
	go q.fill()
	return q, nil
}

// ring wakes a reader, or has the next one not sleep.
func (q *queue) ring() {
	select {
	case q.wake <- struct{}{}:
	default:
	}
}

func (q *queue) take() uint32 {
	if last := len(q.free) - 1; last >= 0 {
		taken := q.free[last]
		q.free = q.free[:last]
		return taken
	}
	q.buffers = append(q.buffers, make([]byte, 0, 2048))
	return uint32(len(q.buffers) - 1)
}

// fill lets each packet arrive that the TUN device has.
func (q *queue) fill() {
	bytes := make([]byte, offset+65535)
	for {
		length, err := q.Device.Read(bytes, offset)
		q.lock.Lock()
		q.err = err
		if err == nil && length > 0 {
			q.arrive(bytes[offset : offset+length])
		}
		q.lock.Unlock()
		q.ring()
		if err != nil {
			return
		}
	}
}

// arrive copies a packet into a buffer, which is the device's until the packet is polled, or its loss is reaped.
func (q *queue) arrive(packet []byte) {
	index := q.take()
	q.buffers[index] = append(q.buffers[index][:0], packet...)
	length := len(packet) + q.overhead
	if length > 65535 {
		length = 65535 // the device loses it as TooLong, or counts a little less
	}
	frame := qtree.Frame{Count: uint16(len(packet)), Len: uint16(length), Buf: index}
	if _, err := q.device.ArriveFrame(packet, frame, q.seed, monotonic()); err != nil {
		q.failed++
		q.free = append(q.free, index)
	}
}

// turn takes one turn, and returns when to take the next.
func (q *queue) turn(now uint64) uint64 {
	send := q.sent[:]
	if q.most > 0 {
		send = q.sent[:1]
		if q.inFlight >= q.most {
			// What wireguard-go drops is never sent: without this, the queue would wait for it.
			if now < q.sentAt+stall {
				send = nil
			} else {
				q.inFlight = 0
			}
		}
	}
	turned, err := q.device.Turn(now, send, q.lost[:])
	if err != nil {
		return now + stall
	}
	for _, it := range q.lost[:turned.Lost] {
		q.losses[it.Cause]++
		q.free = append(q.free, it.Buf)
	}
	for _, it := range send[:turned.Sent] {
		if it.ECN == 3 {
			qtree.MarkHead(q.buffers[it.Buf])
		}
		q.ready = append(q.ready, it.Buf)
	}
	if send == nil && turned.Again <= now {
		return q.sentAt + stall
	}
	return turned.Again
}

// Read returns the packet whose turn it is, and waits until there is one. wireguard-go calls it in a goroutine of its own.
func (q *queue) Read(into []byte, at int) (int, error) {
	for {
		q.lock.Lock()
		if q.err != nil {
			q.lock.Unlock()
			return 0, q.err
		}
		again := qtree.Never
		for now := monotonic(); len(q.ready) == 0; {
			if again = q.turn(now); again > now {
				break
			}
		}
		if len(q.ready) > 0 {
			index := q.ready[0]
			q.ready = q.ready[:copy(q.ready, q.ready[1:])]
			length := copy(into[at:], q.buffers[index])
			q.free = append(q.free, index)
			q.inFlight++
			q.sentAt = monotonic()
			q.lock.Unlock()
			return length, nil
		}
		if again != qtree.Never {
			q.alarm.set(again)
		}
		q.lock.Unlock()
		<-q.wake
	}
}

// left says that a packet is no longer in flight.
func (q *queue) left() {
	q.lock.Lock()
	if q.inFlight > 0 {
		q.inFlight--
	}
	q.sentAt = monotonic()
	q.lock.Unlock()
	q.ring()
}

// setUp has the device follow another file, while packets wait.
func (q *queue) setUp(file string) error {
	q.lock.Lock()
	defer q.lock.Unlock()
	_, err := q.device.SetUp(file, monotonic())
	q.ring()
	return err
}

// show is the text of tc -s qdisc show, and what was lost.
func (q *queue) show() string {
	q.lock.Lock()
	defer q.lock.Unlock()
	text, err := q.device.Show(qtree.Counters)
	if err != nil {
		return err.Error()
	}
	for cause, count := range q.losses {
		if count > 0 {
			text += fmt.Sprintf("lost as %v: %d\n", qtree.Cause(cause), count)
		}
	}
	return text + fmt.Sprintf("buffers: %d, free: %d, failed: %d\n", len(q.buffers), len(q.free), q.failed)
}

// Close closes the TUN device, which ends fill and all reads.
func (q *queue) Close() error {
	err := q.Device.Close()
	_ = q.alarm.file.Close()
	return err
}
