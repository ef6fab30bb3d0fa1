package main

import (
	"encoding/binary"
	"os"
	"strconv"

	"golang.org/x/sys/unix"
	"golang.zx2c4.com/wireguard/conn"
)

// bind is the socket of wireguard-go. It tells the queue of each packet that left, so that few are on their way between the two: otherwise
// they wait in the queues inside of wireguard-go, in which no qdisc orders them.
type bind struct {
	conn.Bind
	queue  *queue
	sndbuf int // SO_SNDBUF of its sockets; 0 leaves it as it is
}

// Open opens the sockets. wireguard-go does not show them, so they are those of this process that have the port.
func (b *bind) Open(port uint16) ([]conn.ReceiveFunc, uint16, error) {
	receive, port, err := b.Bind.Open(port)
	if err != nil || b.sndbuf == 0 {
		return receive, port, err
	}
	open, err := os.ReadDir("/proc/self/fd")
	for _, it := range open {
		fd, err := strconv.Atoi(it.Name())
		if err == nil && portOf(fd) == int(port) {
			_ = unix.SetsockoptInt(fd, unix.SOL_SOCKET, unix.SO_SNDBUF, b.sndbuf)
		}
	}
	return receive, port, err
}

func portOf(fd int) int {
	address, _ := unix.Getsockname(fd)
	switch it := address.(type) {
	case *unix.SockaddrInet4:
		return it.Port
	case *unix.SockaddrInet6:
		return it.Port
	}
	return -1
}

// Send sends a packet, and waits while the socket is full. Of the messages of WireGuard those of type 4 carry data; one of 32 bytes is a
// keepalive.
func (b *bind) Send(bytes []byte, to conn.Endpoint) error {
	err := b.Bind.Send(bytes, to)
	if len(bytes) > 32 && binary.LittleEndian.Uint32(bytes) == 4 {
		b.queue.left()
	}
	return err
}
