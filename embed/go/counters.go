package qtree

// #include <qtree.h>
import "C"

// Place is a place of the tree: the device itself, its root, or a class.
type Place struct {
	kind         C.uint32_t
	major, minor C.uint16_t
}

// Top is the device itself, and Root the qdisc at its root.
var (
	Top  = Place{kind: C.QTREE_TOP}
	Root = Place{kind: C.QTREE_ROOT}
)

// Class is the qdisc in the class major:minor. In lines of tc both are hexadecimal: the class 1:10 is Class(1, 0x10).
func Class(major, minor uint16) Place {
	return Place{C.QTREE_CLASS, C.uint16_t(major), C.uint16_t(minor)}
}

// Count is a number of packets, and the sum of their lengths in bytes.
type Count struct{ Packets, Bytes uint64 }

// Row has the counters of a place. What arrived is what was sent, refused or dropped, or is queued.
type Row struct {
	Arrived Count // including what was refused
	Sent    Count
	Refused Count // lost as TooLong, NoClass or OverLimit
	Dropped Count // lost for another cause
	Queued  Count // now
	Marked  Count // by CoDel; it is part of no sum
}

func countOf(it C.qtree_count) Count { return Count{uint64(it.packets), uint64(it.bytes)} }

// Stats reads the counters of a place. The error is ErrNothing if there is no such place.
func (d *Device) Stats(place Place) (Row, error) {
	var row C.qtree_row
	code := C.qtree_stats(&d.device, place.kind, place.major, place.minor, &row)
	return Row{countOf(row.arrived), countOf(row.sent), countOf(row.refused), countOf(row.dropped), countOf(row.queued),
		countOf(row.marked)}, errorOf(code)
}

// Totals reads the counters of the device itself.
func (d *Device) Totals() (Row, error) { return d.Stats(Top) }

// Oldest returns when the packet arrived that has been queued in a place for the longest. The error is ErrNothing if nothing is queued
// there.
func (d *Device) Oldest(place Place) (uint64, error) {
	code := C.qtree_oldest(&d.device, place.kind, place.major, place.minor, &d.moment)
	return uint64(d.moment), errorOf(code)
}

// MostPackets returns how many packets can be queued at most, as long as no command changes the device. A program needs a buffer for each.
func (d *Device) MostPackets() (uint64, error) {
	code := C.qtree_most_packets(&d.device, &d.moment)
	return uint64(d.moment), errorOf(code)
}

// View is which text Show writes.
type View uint32

// The texts of tc qdisc show, tc -s qdisc show, tc class show and tc filter show.
const (
	Qdiscs   View = C.QTREE_SHOW_QDISCS
	Counters View = C.QTREE_SHOW_COUNTERS
	Classes  View = C.QTREE_SHOW_CLASSES
	Filters  View = C.QTREE_SHOW_FILTERS
)

// Show returns a text about the tree, such as tc shows.
func (d *Device) Show(view View) (string, error) {
	return written(func(text *C.uint8_t, room C.size_t, needed *C.size_t) C.qtree_code {
		return C.qtree_show(&d.device, C.uint32_t(view), text, room, needed)
	})
}

// RecordedScript returns the script of the events that the recorder has. qtree-play does with it what the device did.
func (d *Device) RecordedScript() (string, error) {
	return written(func(text *C.uint8_t, room C.size_t, needed *C.size_t) C.qtree_code {
		return C.qtree_recorded_script(&d.device, text, room, needed)
	})
}

// Version returns the major and the minor number of the library.
func Version() (major, minor uint16) {
	version := uint32(C.qtree_version())
	return uint16(version >> 16), uint16(version)
}
