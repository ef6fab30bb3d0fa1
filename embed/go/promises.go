package qtree

// #include <qtree.h>
import "C"

// Service is what a class of a drr is promised while something is queued in it, whatever comes to the other classes.
type Service struct {
	Link  uint64 // the rate of the tbf at the root, in bits a second; 0 if a drr is at the root, as Rate is
	Rate  uint64 // the class's share of that rate, rounded down at each drr on the way
	Part  uint64 // the class's share of a billion bytes, in bytes, rounded down so too
	Slack uint64 // the most bytes that the class can fall short of its share
	Late  uint64 // by how many nanoseconds polls may be late; Never if they may come at any time
}

// Service returns what the class in a place is promised. The error is ErrNothing if nothing is. The header qtree.h says when it holds.
func (d *Device) Service(place Place) (Service, error) {
	var promise C.qtree_promise
	code := C.qtree_service(&d.device, place.kind, place.major, place.minor, &promise)
	if code == C.QTREE_DONE {
		code = C.qtree_lateness(&d.device, place.kind, place.major, place.minor, &d.moment)
	}
	if code != C.QTREE_DONE {
		return Service{}, Code(code)
	}
	return Service{uint64(promise.link), uint64(promise.rate), uint64(promise.part), uint64(promise.slack), uint64(d.moment)}, nil
}

// Delay is how long a packet waits at most in a pfifo or bfifo, whatever comes meanwhile.
type Delay struct {
	Bytes uint64 // the device sends no more bytes until the packet has left, including the packet's own
	NS    uint64 // nanoseconds, rounded up; Never without a tbf at the root
	Late  uint64 // by how many nanoseconds polls may be late for this to hold
}

// Worst returns how long a packet waits at most in the pfifo or bfifo in a place. The error is ErrNothing if nothing is promised.
func (d *Device) Worst(place Place) (Delay, error) {
	var delay C.qtree_delay
	code := C.qtree_worst(&d.device, place.kind, place.major, place.minor, &delay)
	if code != C.QTREE_DONE {
		return Delay{}, Code(code)
	}
	return Delay{uint64(delay.bytes), uint64(delay.ns), uint64(delay.late)}, nil
}

// Departure is by when a packet has left a pfifo or bfifo.
type Departure struct {
	Bytes uint64 // the device sends no more bytes until then, including the packet's own
	At    uint64 // a time in nanoseconds, counted from the device's last event; Never without a tbf at the root
	Late  uint64 // by how many nanoseconds polls may be late for this to hold
}

// Latest returns by when a packet of this length has left that is to arrive next in the pfifo or bfifo in a place; with a length of 0, by
// when the one has left that was queued there last. The error is ErrNothing if nothing is promised.
func (d *Device) Latest(place Place, length uint16) (Departure, error) {
	var departure C.qtree_departure
	code := C.qtree_latest(&d.device, place.kind, place.major, place.minor, C.uint16_t(length), &departure)
	if code != C.QTREE_DONE {
		return Departure{}, Code(code)
	}
	return Departure{uint64(departure.bytes), uint64(departure.at), uint64(departure.late)}, nil
}
