package qtree

// #include "batch.h"
//
// /* These take and return a packet by its value, which stays on a goroutine's stack. */
// static qtree_packet head_of(const uint8_t *bytes, size_t count, uint32_t seed, qtree_packet packet) {
//     qtree_read_head(bytes, count, seed, &packet);
//     return packet;
// }
//
// typedef struct hashed {
//     qtree_code code;
//     uint32_t hash;
// } hashed;
//
// static hashed hash_of(uint32_t seed, qtree_packet packet) {
//     qtree_code code = qtree_hash(seed, &packet);
//     return (hashed){ code, packet.hash };
// }
import "C"

import (
	"encoding/binary"
	"net/netip"
	"unsafe"
)

// Packet describes a packet. A field that a packet lacks is 0.
type Packet struct {
	SrcHigh uint64 // the high 64 bits of the source address; 0 if the address is one of IPv4
	SrcLow  uint64 // its low 64 bits; 10.0.0.1 is 0x0a000001
	DstHigh uint64
	DstLow  uint64
	Number  uint64 // the program's own, as are Port and Buf: all three come back with the packet
	Port    uint32
	Buf     uint32
	Hash    uint32 // by this an fq_codel chooses the flow; ReadHead and SetHash compute it
	Len     uint16 // the length, by which all qdiscs count: 1 to 65535 bytes
	SrcPort uint16
	DstPort uint16
	Proto   uint8 // the protocol above IP
	Family  uint8 // 4, 6, or 0 if the packet is not IP
	Prio    uint8 // 0 to 15: the index into the priomap of a prio
	ECN     uint8 // the ECN codepoint, 0 to 3
	_       [2]byte
}

// Sent is a packet that a poll gave.
type Sent struct {
	Number uint64
	Port   uint32
	Buf    uint32
	Len    uint16
	ECN    uint8 // if it is 3, MarkHead writes it into the packet's bytes
	_      [5]byte
}

// Lost is a lost packet.
type Lost struct {
	Number uint64
	Port   uint32
	Buf    uint32
	Cause  Cause
	_      [4]byte
}

// Frame says where a packet's bytes are in a block of bytes, and what the device is given.
type Frame struct {
	Number uint64
	Offset uint64 // where its IP header begins
	Buf    uint32
	Count  uint16 // how many bytes there are from the IP header on; the header and 4 bytes behind it are enough
	Len    uint16 // the length that the qdiscs count: 1 to 65535 bytes
}

// These types are C's, field by field: the compiler refuses an array of a negative length.
var (
	packet C.qtree_packet
	sent   C.qtree_sent
	lost   C.qtree_lost
	frame  C.qtree_batch_frame

	_ [unsafe.Sizeof(Packet{}) - unsafe.Sizeof(packet)]byte
	_ [unsafe.Sizeof(packet) - unsafe.Sizeof(Packet{})]byte
	_ [unsafe.Offsetof(Packet{}.ECN) - unsafe.Offsetof(packet.ecn)]byte
	_ [unsafe.Offsetof(packet.ecn) - unsafe.Offsetof(Packet{}.ECN)]byte
	_ [unsafe.Sizeof(Sent{}) - unsafe.Sizeof(sent)]byte
	_ [unsafe.Sizeof(sent) - unsafe.Sizeof(Sent{})]byte
	_ [unsafe.Offsetof(Sent{}.ECN) - unsafe.Offsetof(sent.ecn)]byte
	_ [unsafe.Offsetof(sent.ecn) - unsafe.Offsetof(Sent{}.ECN)]byte
	_ [unsafe.Sizeof(Lost{}) - unsafe.Sizeof(lost)]byte
	_ [unsafe.Sizeof(lost) - unsafe.Sizeof(Lost{})]byte
	_ [unsafe.Offsetof(Lost{}.Cause) - unsafe.Offsetof(lost.cause)]byte
	_ [unsafe.Offsetof(lost.cause) - unsafe.Offsetof(Lost{}.Cause)]byte
	_ [unsafe.Sizeof(Frame{}) - unsafe.Sizeof(frame)]byte
	_ [unsafe.Sizeof(frame) - unsafe.Sizeof(Frame{})]byte
	_ [unsafe.Offsetof(Frame{}.Len) - unsafe.Offsetof(frame.len)]byte
	_ [unsafe.Offsetof(frame.len) - unsafe.Offsetof(Frame{}.Len)]byte
)

// SetAddresses sets Family and both addresses. If they are not of one family, the packet is one that is not IP.
func (p *Packet) SetAddresses(src, dst netip.Addr) {
	src, dst = src.Unmap(), dst.Unmap()
	p.Family, p.SrcHigh, p.SrcLow, p.DstHigh, p.DstLow = 0, 0, 0, 0, 0
	switch {
	case src.Is4() && dst.Is4():
		from, to := src.As4(), dst.As4()
		p.Family, p.SrcLow, p.DstLow = 4, uint64(binary.BigEndian.Uint32(from[:])), uint64(binary.BigEndian.Uint32(to[:]))
	case src.Is6() && dst.Is6():
		from, to := src.As16(), dst.As16()
		p.Family = 6
		p.SrcHigh, p.SrcLow = binary.BigEndian.Uint64(from[:8]), binary.BigEndian.Uint64(from[8:])
		p.DstHigh, p.DstLow = binary.BigEndian.Uint64(to[:8]), binary.BigEndian.Uint64(to[8:])
	}
}

// SetHash computes the hash of the packet's flow with this seed.
func (p *Packet) SetHash(seed uint32) error {
	hashed := C.hash_of(C.uint32_t(seed), *(*C.qtree_packet)(unsafe.Pointer(p)))
	p.Hash = uint32(hashed.hash)
	return errorOf(hashed.code)
}

// ReadHead reads the IP header with which bytes begins, and the ports behind it, and hashes the flow. Number, Port, Buf and Len stay as
// they are. If bytes is not an IP header, the fields that are read are 0.
func (p *Packet) ReadHead(bytes []byte, seed uint32) {
	read := C.head_of(first(bytes), C.size_t(len(bytes)), C.uint32_t(seed), *(*C.qtree_packet)(unsafe.Pointer(p)))
	*p = *(*Packet)(unsafe.Pointer(&read))
}

// IPAt returns where the IP header begins in an Ethernet frame, or 0 if there is none that is known.
func IPAt(bytes []byte) int { return int(C.qtree_ip_at(first(bytes), C.size_t(len(bytes)))) }

// MarkHead writes the mark Congestion Experienced into a packet that begins with its IP header, and returns whether the packet is marked
// now. A program calls it for each packet that is sent with the ECN codepoint 3.
func MarkHead(bytes []byte) bool { return bool(C.qtree_mark_head(first(bytes), C.size_t(len(bytes)))) }

func first(bytes []byte) *C.uint8_t {
	if len(bytes) == 0 {
		return nil
	}
	return (*C.uint8_t)(unsafe.Pointer(&bytes[0]))
}
