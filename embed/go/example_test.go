package qtree_test

import (
	"errors"
	"fmt"
	"net/netip"

	"qtree"
)

// Three packets go through a token bucket.
func Example() {
	device, err := qtree.Open(qtree.Settings{})
	if err != nil {
		fmt.Println(err)
		return
	}
	defer device.Close()
	if err := device.Run("tc qdisc add dev wan root handle 1: tbf rate 8mbit burst 2000 latency 50ms", 0); err != nil {
		fmt.Println(err)
		return
	}
	for buf := uint32(0); buf < 3; buf++ {
		if _, err := device.Arrive(&qtree.Packet{Len: 1000, Buf: buf}, 0); err != nil {
			fmt.Println(err)
		}
	}
	for now, ok := device.ReadyAt(); ok; now, ok = device.ReadyAt() {
		if sent, ok, _ := device.Poll(now); ok {
			fmt.Println(sent.Buf, "at", now)
		}
	}
	// Output:
	// 0 at 0
	// 1 at 0
	// 2 at 1000000
}

// A program takes a turn whenever a packet came in, and when the time of the last turn has come.
func ExampleDevice_Turn() {
	device, err := qtree.Open(qtree.Settings{})
	if err != nil {
		fmt.Println(err)
		return
	}
	defer device.Close()
	_, err = device.SetUp(`
tc qdisc add dev wan root handle 1: tbf rate 8mbit burst 1600 latency 50ms
tc qdisc add dev wan parent 1:1 handle 2: pfifo limit 2
`, 0)
	if err != nil {
		fmt.Println(err)
		return
	}
	packets := []qtree.Packet{{Len: 1000, Buf: 7}, {Len: 1000, Buf: 8}, {Len: 1000, Buf: 9}}
	causes := make([]uint8, len(packets))
	if _, err := device.ArriveMany(packets, causes, 0); err != nil {
		fmt.Println(err)
	}
	sent, lost := make([]qtree.Sent, 32), make([]qtree.Lost, 32)
	for now := uint64(0); now != qtree.Never; {
		turned, err := device.Turn(now, sent, lost)
		if err != nil {
			fmt.Println(err)
			return
		}
		for _, packet := range sent[:turned.Sent] {
			fmt.Println("transmit", packet.Buf, "at", now)
		}
		for _, packet := range lost[:turned.Lost] {
			fmt.Println("free", packet.Buf, "lost as", packet.Cause)
		}
		now = turned.Again // a program sleeps until then, or until a packet comes in
	}
	// Output:
	// transmit 7 at 0
	// free 9 lost as OverLimit
	// transmit 8 at 400000
}

// The error of a set-up names each line that cannot be carried out.
func ExampleDevice_SetUp() {
	device, err := qtree.Open(qtree.Settings{})
	if err != nil {
		fmt.Println(err)
		return
	}
	defer device.Close()
	_, err = device.SetUp("tc qdisc add dev wan root handle 1: fq_codell\n", 0)
	var failed *qtree.SetUpError
	fmt.Println(errors.As(err, &failed), failed.Lines[0].Line, failed.Lines[0].Fault, errors.Is(failed.Lines[0], qtree.ErrFaulty))
	fmt.Println(err)
	// Output:
	// true 1 UnknownWord true
	// qtree: line 1: Faulty
	// line 1: tc qdisc add dev wan root handle 1: fq_codell
	//                                             ^^^^^^^^^
	//   fq_codell is no word of tc qdisc add; did you mean fq_codel?
}

// A class of a drr below a tbf is promised a rate.
func ExampleDevice_Service() {
	device, err := qtree.Open(qtree.Settings{})
	if err != nil {
		fmt.Println(err)
		return
	}
	defer device.Close()
	_, err = device.SetUp(`
tc qdisc add dev wan root handle 1: tbf rate 20mbit burst 1640 latency 50ms
tc qdisc add dev wan parent 1:1 handle 2: drr
tc class add dev wan parent 2: classid 2:1 drr quantum 3000
tc class add dev wan parent 2: classid 2:2 drr quantum 1500
`, 0)
	if err != nil {
		fmt.Println(err)
		return
	}
	service, err := device.Service(qtree.Class(2, 1))
	fmt.Println(service.Rate, service.Slack, err)
	_, err = device.Service(qtree.Class(2, 3))
	fmt.Println(err)
	// Output:
	// 13333333 5532 <nil>
	// qtree: Nothing: What the call asks for does not exist, no longer exists, or is not promised: go on without it.
}

// A packet is described by its fields, or by its bytes.
func ExamplePacket_SetAddresses() {
	packet := qtree.Packet{Len: 1500, Proto: 17, SrcPort: 40000, DstPort: 5060}
	packet.SetAddresses(netip.MustParseAddr("10.0.0.1"), netip.MustParseAddr("10.0.0.2"))
	err := packet.SetHash(7)
	fmt.Printf("%d %x %v\n", packet.Family, packet.SrcLow, err)
	// Output: 4 a000001 <nil>
}
