package qtree

import (
	"sync"
	"testing"
)

// No call on a packet's path allocates in Go.
func TestNoAllocations(t *testing.T) {
	const count = 32
	device := opened(t, "tc qdisc add dev w root handle 1: fq_codel limit 8")
	packets, causes := make([]Packet, count), make([]uint8, count)
	frames, block := make([]Frame, count), udp(1000, 9, 0)
	for i := range packets {
		packets[i].Len = 1000
		frames[i] = Frame{Count: 1000, Len: 1000, Buf: uint32(i)}
	}
	sent, lost := make([]Sent, count), make([]Lost, count)
	turn := func() {
		if turned, err := device.Turn(0, sent, lost); turned.Sent == 0 || err != nil {
			t.Fatal(turned, err)
		}
	}
	single := func() {
		for {
			if _, ok, _ := device.Poll(0); !ok {
				break
			}
		}
		for {
			if _, ok := device.Reap(); !ok {
				break
			}
		}
	}
	for name, arrive := range map[string]func(){
		"Arrive": func() {
			packet := Packet{Len: 1000}
			packet.ReadHead(block, seed)
			_ = packet.SetHash(1)
			_, _ = device.Arrive(&packet, 0)
		},
		"ArriveFrame":  func() { _, _ = device.ArriveFrame(block, frames[0], seed, 0) },
		"ArriveMany":   func() { _, _ = device.ArriveMany(packets, causes, 0) },
		"ArriveFrames": func() { _, _ = device.ArriveFrames(block, frames, causes, seed, 0) },
		"a refusal":    func() { _, _ = device.Arrive(&Packet{Len: 9999}, 0); _, _ = device.Arrive(&Packet{Len: 1}, 0) },
		"an error":     func() { _, _ = device.Arrive(&Packet{}, 0); _, _ = device.Arrive(&Packet{Len: 1}, 0) },
	} {
		for how, take := range map[string]func(){"Turn": turn, "Poll and Reap": single} {
			allocations := testing.AllocsPerRun(100, func() { arrive(); _, _ = device.ReadyAt(); take() })
			if allocations != 0 {
				t.Errorf("%s, %s: %v allocations", name, how, allocations)
			}
		}
	}
}

// Goroutines share a device under a lock, and each may have one of its own.
func TestGoroutines(t *testing.T) {
	var lock sync.Mutex
	var all sync.WaitGroup
	shared := opened(t, "tc qdisc add dev w root handle 1: pfifo limit 1000000")
	for i := 0; i < 4; i++ {
		own := opened(t, "tc qdisc add dev w root handle 1: fq_codel")
		all.Add(1)
		go func() {
			defer all.Done()
			for k := 0; k < 1000; k++ {
				_, _ = own.Arrive(&Packet{Len: 100}, 0)
				lock.Lock()
				_, _ = shared.Arrive(&Packet{Len: 100}, 0)
				lock.Unlock()
			}
		}()
	}
	all.Wait()
	if row, err := shared.Totals(); row.Queued.Packets != 4000 || err != nil {
		t.Fatal(row, err)
	}
}

func BenchmarkOneByOne(b *testing.B) {
	device := opened(b, "tc qdisc add dev w root handle 1: fq_codel")
	block := udp(1400, 9, 0)
	for i := 0; i < b.N; i++ {
		_, _ = device.ArriveFrame(block, Frame{Count: 64, Len: 1400}, seed, uint64(i))
		_, _, _ = device.Poll(uint64(i))
	}
}

func BenchmarkBy32(b *testing.B) {
	const count = 32
	device := opened(b, "tc qdisc add dev w root handle 1: fq_codel")
	var block []byte
	var frames []Frame
	for i := 0; i < count; i++ {
		frames = append(frames, Frame{Offset: uint64(len(block)), Count: 64, Len: 1400, Buf: uint32(i)})
		block = append(block, udp(64, i, 0)...)
	}
	causes, sent, lost := make([]uint8, count), make([]Sent, count), make([]Lost, count)
	b.ResetTimer()
	for i := 0; i < b.N; i += count {
		_, _ = device.ArriveFrames(block, frames, causes, seed, uint64(i))
		_, _ = device.Turn(uint64(i), sent, lost)
	}
}
