// Package qtree is a packet scheduler with the behaviour of Linux traffic control: a tree of queueing disciplines (pfifo, bfifo, prio, tbf,
// drr and fq_codel) that lines of tc set up. It binds the library for C by cgo.
//
// A [Device] is one scheduler. A program describes each packet to it in a [Packet], or passes the packet's first bytes as a [Frame], and
// keeps the packet's bytes itself. It finds them again by Buf or Number, which are the program's own and come back when the packet is sent
// or lost.
//
//	device, err := qtree.Open(qtree.Settings{})
//	err = device.Run("tc qdisc add dev wan root handle 1: fq_codel", now)
//	cause, err := device.ArriveFrame(bytes, qtree.Frame{Count: 1400, Len: 1400, Buf: 7}, seed, now)
//	turned, err := device.Turn(now, sent[:], lost[:]) // transmit sent[:turned.Sent], free lost[:turned.Lost], sleep until turned.Again
//
// # Times
//
// A time is a number of nanoseconds since an instant that the program chooses, and at most [MomentMax]. The device reads no clock. Time
// never goes back: the latest time that has counted so far counts in place of a time before it.
//
// # Goroutines
//
// One goroutine at a time uses a device; a program with several guards it by a mutex. Devices are independent of each other.
//
// # Memory
//
// No call on a packet's path allocates in Go, and each takes one call of C. [Device.ArriveMany], [Device.ArriveFrames] and [Device.Turn]
// take many packets by one call of C. A packet is a number here, and never a Go pointer: C keeps none.
//
// # What is proved
//
// What each function of the library does to a device is proved (unless its description in pkg-config says that it is not). This package is
// Go and some C over it, which is tested and not proved.
package qtree
