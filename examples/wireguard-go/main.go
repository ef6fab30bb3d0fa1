// Wireguard-go with a queue of qtree between its TUN device and its encryption: wireguard-queue [-file FILE] INTERFACE
package main

import (
	"flag"
	"fmt"
	"os"
	"os/signal"
	"syscall"

	"golang.zx2c4.com/wireguard/conn"
	"golang.zx2c4.com/wireguard/device"
	"golang.zx2c4.com/wireguard/ipc"
	"golang.zx2c4.com/wireguard/tun"
)

func must[T any](it T, err error) T {
	if err != nil {
		fmt.Fprintln(os.Stderr, err)
		os.Exit(1)
	}
	return it
}

func main() {
	file := flag.String("file", "", "a file of lines of tc; without it there is no queue")
	overhead := flag.Int("overhead", 74, "bytes of headers that count beside a packet's own: Ethernet 14, IPv4 20, UDP 8, WireGuard 32")
	most := flag.Int("in-flight", 0, "how many packets may be between the queue and the socket; 0 is no limit")
	sndbuf := flag.Int("sndbuf", 0, "SO_SNDBUF of the sockets; 0 leaves it as it is")
	flag.Parse()
	if flag.NArg() != 1 {
		flag.Usage()
		os.Exit(2)
	}
	name := flag.Arg(0)
	inner := must(tun.CreateTUN(name, device.DefaultMTU))
	socket := conn.NewDefaultBind()
	var shaped *queue
	if *file != "" {
		text := must(os.ReadFile(*file))
		shaped = must(newQueue(inner, string(text), must(inner.MTU()), *overhead, *most))
		inner, socket = shaped, &bind{socket, shaped, *sndbuf}
	}
	daemon := device.NewDevice(inner, socket, device.NewLogger(device.LogLevelError, "wireguard-queue: "))
	uapi := must(ipc.UAPIListen(name, must(ipc.UAPIOpen(name))))
	go func() {
		for {
			client, err := uapi.Accept()
			if err != nil {
				return
			}
			go daemon.IpcHandle(client)
		}
	}()
	wait(daemon, shaped, *file)
	uapi.Close()
	daemon.Close()
}

// wait answers signals until the daemon is to end: SIGHUP reads the file again, and SIGUSR1 shows the counters.
func wait(daemon *device.Device, shaped *queue, file string) {
	signals := make(chan os.Signal, 1)
	signal.Notify(signals, syscall.SIGTERM, os.Interrupt, syscall.SIGHUP, syscall.SIGUSR1)
	for {
		select {
		case <-daemon.Wait():
			return
		case it := <-signals:
			switch {
			case it != syscall.SIGHUP && it != syscall.SIGUSR1:
				return
			case shaped == nil:
			case it == syscall.SIGUSR1:
				fmt.Fprint(os.Stderr, shaped.show())
			default:
				text, err := os.ReadFile(file)
				if err == nil {
					err = shaped.setUp(string(text))
				}
				if err != nil {
					fmt.Fprintln(os.Stderr, err)
				}
			}
		}
	}
}
