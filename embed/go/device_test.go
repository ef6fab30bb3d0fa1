package qtree

import (
	"encoding/binary"
	"errors"
	"strings"
	"testing"
)

const seed = 7

// opened is a device with this file, closed at the end of the test.
func opened(t testing.TB, file string) *Device {
	t.Helper()
	device, err := Open(Settings{})
	if err != nil {
		t.Fatal(err)
	}
	t.Cleanup(device.Close)
	if _, err := device.SetUp(file, 0); err != nil {
		t.Fatal(err)
	}
	return device
}

// udp is the first bytes of a datagram over IPv4, of so many bytes.
func udp(length, sport int, ecn byte) []byte {
	bytes := make([]byte, length)
	bytes[0], bytes[1], bytes[8], bytes[9] = 0x45, ecn, 64, 17
	binary.BigEndian.PutUint16(bytes[2:], uint16(length))
	copy(bytes[12:], []byte{10, 0, 0, 1, 10, 0, 0, 2})
	binary.BigEndian.PutUint16(bytes[20:], uint16(sport))
	binary.BigEndian.PutUint16(bytes[22:], 5060)
	return bytes
}

// turns takes turns at now until there is nothing left to do then, and returns what was sent and lost.
func turns(t *testing.T, device *Device, now uint64) ([]Sent, []Lost, uint64) {
	t.Helper()
	var allSent []Sent
	var allLost []Lost
	sent, lost := make([]Sent, 3), make([]Lost, 3)
	for {
		turned, err := device.Turn(now, sent, lost)
		if err != nil {
			t.Fatal(err)
		}
		allSent = append(allSent, sent[:turned.Sent]...)
		allLost = append(allLost, lost[:turned.Lost]...)
		if turned.Again > now {
			return allSent, allLost, turned.Again
		}
	}
}

func TestFramesArriveLikePackets(t *testing.T) {
	var block []byte
	var frames []Frame
	byOne, byMany := opened(t, "tc qdisc add dev w root handle 1: fq_codel"), opened(t, "tc qdisc add dev w root handle 1: fq_codel")
	for i := 0; i < 100; i++ {
		bytes := udp(100+i, 1000+i%5, 0)
		frames = append(frames, Frame{Number: uint64(i) << 40, Offset: uint64(len(block)), Buf: uint32(i), Count: uint16(len(bytes)),
			Len: uint16(len(bytes))})
		block = append(block, bytes...)
		packet := Packet{Number: uint64(i) << 40, Buf: uint32(i), Len: uint16(len(bytes))}
		packet.ReadHead(bytes, seed)
		if packet.SrcPort != uint16(1000+i%5) || packet.DstPort != 5060 || packet.Hash == 0 {
			t.Fatalf("%+v", packet)
		}
		if cause, err := byOne.Arrive(&packet, 5); cause != Kept || err != nil {
			t.Fatal(cause, err)
		}
	}
	causes := make([]uint8, len(frames))
	if count, err := byMany.ArriveFrames(block, frames, causes, seed, 5); count != 100 || err != nil {
		t.Fatal(count, err)
	}
	first, _, _ := turns(t, byOne, 6)
	second, _, again := turns(t, byMany, 6)
	if len(first) != 100 || len(second) != 100 || again != Never {
		t.Fatal(len(first), len(second), again)
	}
	for i := range first {
		if first[i] != second[i] || first[i].Number != uint64(first[i].Buf)<<40 {
			t.Fatal(i, first[i], second[i])
		}
	}
}

func TestFrameOutsideOfItsBlock(t *testing.T) {
	device := opened(t, "tc qdisc add dev w root handle 1: pfifo limit 100")
	frames := make([]Frame, 40)
	for i := range frames {
		frames[i] = Frame{Count: 60, Len: 60, Buf: uint32(i)}
	}
	frames[35].Offset = 1
	causes := make([]uint8, len(frames))
	if count, err := device.ArriveFrames(udp(60, 1, 0), frames, causes, seed, 0); count != 35 || err != ErrOutOfRange {
		t.Fatal(count, err)
	}
	frames[35].Offset = 1 << 63
	if cause, err := device.ArriveFrame(udp(60, 1, 0), frames[35], seed, 0); cause != Kept || err != ErrOutOfRange {
		t.Fatal(cause, err)
	}
	if row, err := device.Totals(); row.Queued.Packets != 35 || err != nil {
		t.Fatal(row, err)
	}
	if count, err := device.ArriveFrames(nil, frames, causes[:39], seed, 0); count != 0 || err != ErrRoom {
		t.Fatal(count, err)
	}
	if count, err := device.ArriveMany(make([]Packet, 2), causes, 0); count != 0 || err != ErrOutOfRange {
		t.Fatal(count, err)
	}
	if count, err := device.ArriveMany(nil, nil, 0); count != 0 || err != nil {
		t.Fatal(count, err)
	}
}

func TestEveryPacketIsSentOrLost(t *testing.T) {
	device := opened(t, "tc qdisc add dev w root handle 1: tbf rate 8mbit burst 2000 latency 1s\n"+
		"tc qdisc add dev w parent 1:1 handle 2: pfifo limit 10")
	seen := map[uint32]bool{}
	see := func(buf uint32) {
		if seen[buf] {
			t.Fatal("twice:", buf)
		}
		seen[buf] = true
	}
	now := uint64(0)
	for buf := uint32(0); buf < 50; buf++ {
		if _, err := device.Arrive(&Packet{Len: 1000, Buf: buf}, now); err != nil {
			t.Fatal(err)
		}
	}
	for now != Never {
		sent, lost, again := turns(t, device, now)
		for _, it := range sent {
			see(it.Buf)
		}
		for _, it := range lost {
			if see(it.Buf); it.Cause != OverLimit || it.Cause.String() != "OverLimit" {
				t.Fatal(it)
			}
		}
		now = again
	}
	row, err := device.Totals()
	if len(seen) != 50 || err != nil || row.Arrived.Packets != 50 || row.Sent.Packets != 10 || row.Refused.Bytes != 40000 {
		t.Fatal(len(seen), row, err)
	}
	if _, more := device.Reap(); more {
		t.Fatal("a loss waits")
	}
}

func TestAMarkIsWritten(t *testing.T) {
	device := opened(t, "tc qdisc add dev w root handle 1: fq_codel target 1us interval 10us")
	bytes := udp(1500, 9, 2)
	frame := Frame{Count: 1500, Len: 1500}
	for i := 0; i < 400; i++ {
		if _, err := device.ArriveFrame(bytes, frame, seed, 0); err != nil {
			t.Fatal(err)
		}
	}
	for now := uint64(1000000); ; now += 1000000 {
		sent, ok, err := device.Poll(now)
		if !ok || err != nil {
			t.Fatal("no packet was marked", err)
		}
		if sent.ECN == 3 {
			break
		}
	}
	if !MarkHead(bytes) || bytes[1]&3 != 3 || MarkHead(udp(100, 9, 0)) || MarkHead(nil) {
		t.Fatal("the mark")
	}
	if IPAt(append(append(make([]byte, 12), 8, 0), bytes...)) != 14 || IPAt(nil) != 0 {
		t.Fatal("the place of the IP header")
	}
}

func TestErrors(t *testing.T) {
	device := opened(t, "tc qdisc add dev w root handle 1: pfifo limit 3")
	err := device.Run("tc qdisc add dev w root handle 2: pfifo", 0)
	var failed *LineError
	if !errors.As(err, &failed) || !errors.Is(err, ErrExists) || !strings.Contains(failed.Explanation, "line 1: tc qdisc add") {
		t.Fatal(err)
	}
	if err := device.Run("# a comment", 0); !errors.Is(err, ErrNoCommand) {
		t.Fatal(err)
	}
	if err := device.Run("tc qdisc del dev w root", MomentMax+1); err != ErrOutOfRange {
		t.Fatal(err)
	}
	_, err = device.SetUp("tc qdisc add dev w root handle 1: pfifo limit 3\n"+strings.Repeat("pkt\n", 150), 0)
	var undone *SetUpError
	if !errors.As(err, &undone) || !errors.Is(err, ErrUndone) || undone.Count != 150 || len(undone.Lines) != 100 ||
		undone.Lines[0].Line != 2 || !strings.HasSuffix(err.Error(), "qtree: and 50 lines more") {
		t.Fatal(err)
	}
	report, err := device.SetUp("tc qdisc add dev w root handle 1: pfifo limit 4\n", 0)
	if err != nil || report != (Report{Lines: 1, Changed: 1}) {
		t.Fatal(report, err)
	}
	if _, err := device.Turn(MomentMax+1, nil, nil); err != ErrOutOfRange {
		t.Fatal(err)
	}
	if cause, err := device.Arrive(&Packet{}, 0); cause != Kept || err != ErrOutOfRange {
		t.Fatal(cause, err)
	}
	device.Close()
	device.Close()
	for _, err := range []error{device.Run("tc qdisc del dev w root", 0), errOf(device.Turn(0, nil, nil)), errOf(device.Totals()),
		errOf(device.Show(Qdiscs)), errOf(device.SetUp("", 0)), errOf(device.Arrive(&Packet{Len: 1}, 0)), errOf(device.Worst(Root))} {
		if err != ErrClosed {
			t.Fatal(err)
		}
	}
	if _, ok := device.ReadyAt(); ok {
		t.Fatal("a closed device is ready")
	}
}

func errOf[T any](_ T, err error) error { return err }

func TestPromises(t *testing.T) {
	device := opened(t, "tc qdisc add dev w root handle 1: tbf rate 8mbit burst 2000 latency 1s\n"+
		"tc qdisc add dev w parent 1:1 handle 2: pfifo limit 2")
	worst, err := device.Worst(Class(1, 1))
	if err != nil || worst.Bytes == 0 || worst.NS == Never || worst.Late == 0 {
		t.Fatal(worst, err)
	}
	latest, err := device.Latest(Class(1, 1), 1000)
	if err != nil || latest.Bytes != 1000 || latest.At > worst.NS {
		t.Fatal(latest, err)
	}
	if most, err := device.MostPackets(); most != 3 || err != nil {
		t.Fatal(most, err)
	}
	if _, err := device.Oldest(Root); err != ErrNothing {
		t.Fatal(err)
	}
	if _, err := device.Stats(Class(9, 9)); err != ErrNothing {
		t.Fatal(err)
	}
	if text, err := device.Show(Counters); err != nil || !strings.Contains(text, "qdisc tbf 1: root") {
		t.Fatal(text, err)
	}
}

func TestRecordedScript(t *testing.T) {
	device, err := Open(Settings{Recorder: 1000, MTU: 9000, TxQueueLen: 5})
	if err != nil {
		t.Fatal(err)
	}
	defer device.Close()
	for i := 0; i < 300; i++ {
		if _, err := device.Arrive(&Packet{Len: 9000, Family: 4, SrcLow: 1, DstLow: 2, Proto: 17}, 0); err != nil {
			t.Fatal(err)
		}
	}
	script, err := device.RecordedScript()
	if err != nil || strings.Count(script, "pkt ") != 300 || len(script) < 4096 {
		t.Fatal(len(script), err)
	}
	if row, _ := device.Totals(); row.Queued.Packets != 5 {
		t.Fatal(row)
	}
}
