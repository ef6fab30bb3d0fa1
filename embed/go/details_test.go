package qtree

import (
	"net/netip"
	"strings"
	"testing"
)

func TestAddresses(t *testing.T) {
	four, other, six := netip.MustParseAddr("10.0.0.1"), netip.MustParseAddr("10.0.0.2"), netip.MustParseAddr("2001:db8::1:2:3:4")
	packet := Packet{Len: 1}
	packet.SetAddresses(six, netip.MustParseAddr("2001:db8:1::5"))
	if packet.Family != 6 || packet.SrcHigh != 0x20010db800000000 || packet.SrcLow != 0x0001000200030004 ||
		packet.DstHigh != 0x20010db800010000 || packet.DstLow != 5 {
		t.Fatalf("%+v", packet)
	}
	// What an IPv6 address left is gone, and a mapped address is one of IPv4.
	for _, src := range []netip.Addr{four, netip.MustParseAddr("::ffff:10.0.0.1")} {
		packet.SetAddresses(src, other)
		if packet.Family != 4 || packet.SrcHigh != 0 || packet.SrcLow != 0x0a000001 || packet.DstHigh != 0 || packet.DstLow != 0x0a000002 {
			t.Fatalf("%+v", packet)
		}
		packet.SetAddresses(six, six)
	}
	packet.SetAddresses(four, six)
	if packet != (Packet{Len: 1}) {
		t.Fatalf("%+v", packet)
	}
}

func TestHashesOfASeed(t *testing.T) {
	read := Packet{}
	read.ReadHead(udp(60, 9, 0), seed)
	packet := read
	packet.Hash = 0
	if err := packet.SetHash(seed); err != nil || packet != read {
		t.Fatalf("%v %+v %+v", err, packet, read)
	}
	if err := packet.SetHash(seed + 1); err != nil || packet.Hash == read.Hash {
		t.Fatal(err, packet.Hash)
	}
}

func TestUndoneLinesAreThoseOfTheFile(t *testing.T) {
	device := opened(t, "")
	_, err := device.SetUp("# a comment\npol\n"+strings.Repeat("pkt\n", 100), 0)
	failed, ok := err.(*SetUpError)
	if !ok || failed.Count != 101 || !strings.HasSuffix(err.Error(), "qtree: and 1 lines more") {
		t.Fatal(err)
	}
	if first := failed.Lines[0]; first.Line != 2 || first.Word != 1 || !strings.HasPrefix(first.Explanation, "line 2: pol\n") {
		t.Fatal(first)
	}
	if last := failed.Lines[99]; last.Line != 101 || !strings.HasPrefix(last.Explanation, "line 101: pkt\n") {
		t.Fatal(last)
	}
}

func TestReportsOfASetUp(t *testing.T) {
	device := opened(t, "tc qdisc add dev w root handle 1: drr\ntc class add dev w parent 1: classid 1:1 drr quantum 100\n"+
		"tc class add dev w parent 1: classid 1:2 drr\n")
	report, err := device.SetUp("tc qdisc add dev w root handle 1: drr\ntc class add dev w parent 1: classid 1:1 drr quantum 200\n"+
		"tc qdisc add dev w parent 1:1 handle 2: pfifo\n", 0)
	if err != nil || report != (Report{Lines: 3, Added: 1, Changed: 1, Deleted: 1}) {
		t.Fatal(report, err)
	}
}

func TestSettingsThatAreNotGiven(t *testing.T) {
	device, err := Open(Settings{Recorder: 2})
	if err != nil {
		t.Fatal(err)
	}
	defer device.Close()
	for length, wanted := range map[uint16]Cause{1514: Kept, 1515: TooLong} {
		if cause, err := device.Arrive(&Packet{Len: length}, 0); cause != wanted || err != nil {
			t.Fatal(length, cause, err)
		}
	}
	if script, err := device.RecordedScript(); err != nil || strings.Count(script, "pkt ") != 2 {
		t.Fatal(script, err)
	}
	if _, ok := device.ReadyAt(); !ok {
		t.Fatal("a packet waits")
	}
	if _, sent, err := device.Poll(0); !sent || err != nil {
		t.Fatal(err)
	}
	if _, ok := device.ReadyAt(); ok {
		t.Fatal("nothing waits")
	}
}

func TestLaterIsNoError(t *testing.T) {
	device := opened(t, "tc qdisc add dev w root handle 1: tbf rate 8mbit burst 2000 latency 1s")
	sent, lost := make([]Sent, 2), make([]Lost, 2)
	for i := 0; i < 3; i++ {
		if _, err := device.Arrive(&Packet{Len: 1000}, 0); err != nil {
			t.Fatal(err)
		}
	}
	if turned, err := device.Turn(0, sent, lost); err != nil || turned != (Turned{Sent: 2, Again: 1000000}) {
		t.Fatal(turned, err)
	}
	if _, isSent, err := device.Poll(999999); isSent || err != nil {
		t.Fatal(isSent, err)
	}
	if _, isSent, err := device.Poll(1000000); !isSent || err != nil {
		t.Fatal(isSent, err)
	}
}

func TestPromisesOfAClass(t *testing.T) {
	device := opened(t, "tc qdisc add dev w root handle 1: tbf rate 20mbit burst 1640 latency 50ms\ntc qdisc add dev w parent 1:1 handle 2: drr\n"+
		"tc class add dev w parent 2: classid 2:5 drr quantum 3000\ntc class add dev w parent 2: classid 2:6 drr quantum 1500\n")
	// The burst has room for 126 bytes more than a longest packet, which the rate brings in 50,400 ns.
	service, err := device.Service(Class(2, 5))
	if err != nil || service != (Service{Link: 20000000, Rate: 13333333, Part: 666666666, Slack: 5532, Late: 50399}) {
		t.Fatalf("%+v %v", service, err)
	}
	if _, err := device.Service(Class(2, 7)); err != ErrNothing {
		t.Fatal(err)
	}
	device = opened(t, "tc qdisc add dev w root handle 1: tbf rate 8mbit burst 2000 latency 1s\n"+
		"tc qdisc add dev w parent 1:1 handle 2: bfifo limit 3000")
	if worst, err := device.Worst(Class(1, 1)); err != nil || worst != (Delay{Bytes: 3000, NS: 3000000, Late: 485999}) {
		t.Fatalf("%+v %v", worst, err)
	}
}
