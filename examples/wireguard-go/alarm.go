package main

import (
	"os"

	"golang.org/x/sys/unix"
)

// alarm rings at a time of CLOCK_MONOTONIC, by a timerfd: a timer of Go's own may come up to a millisecond late.
type alarm struct{ file *os.File }

func newAlarm(ring func()) (alarm, error) {
	fd, err := unix.TimerfdCreate(unix.CLOCK_MONOTONIC, unix.TFD_NONBLOCK|unix.TFD_CLOEXEC)
	if err != nil {
		return alarm{}, err
	}
	file := os.NewFile(uintptr(fd), "timerfd")
	go func() {
		var times [8]byte
		for {
			if _, err := file.Read(times[:]); err != nil {
				return
			}
			ring()
		}
	}()
	return alarm{file}, nil
}

// set makes the alarm ring at a time, which is not 0, and at no other.
func (a alarm) set(at uint64) {
	connection, err := a.file.SyscallConn()
	if err != nil {
		return
	}
	_ = connection.Control(func(fd uintptr) {
		_ = unix.TimerfdSettime(int(fd), unix.TFD_TIMER_ABSTIME, &unix.ItimerSpec{Value: unix.NsecToTimespec(int64(at))}, nil)
	})
}

// monotonic is the time in nanoseconds since the machine started.
func monotonic() uint64 {
	var now unix.Timespec
	_ = unix.ClockGettime(unix.CLOCK_MONOTONIC, &now)
	return uint64(now.Nano())
}
