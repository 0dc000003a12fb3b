//go:build linux

package truetime

import (
	"context"
	"net"
	"strconv"
	"syscall"
	"testing"
	"time"
)

// fullPort gives a port of 127.0.0.1 at which somebody listens, and lets nobody in any more.
func fullPort(t *testing.T) int {
	t.Helper()
	open := func() int {
		fd, err := syscall.Socket(syscall.AF_INET, syscall.SOCK_STREAM|syscall.SOCK_NONBLOCK|syscall.SOCK_CLOEXEC, 0)
		if err != nil {
			t.Fatal(err)
		}
		t.Cleanup(func() { syscall.Close(fd) })
		return fd
	}
	here, listener := [4]byte{127, 0, 0, 1}, open()
	if err := syscall.Bind(listener, &syscall.SockaddrInet4{Addr: here}); err != nil {
		t.Fatal(err)
	}
	if err := syscall.Listen(listener, 0); err != nil {
		t.Fatal(err)
	}
	name, err := syscall.Getsockname(listener)
	if err != nil {
		t.Fatal(err)
	}
	port := name.(*syscall.SockaddrInet4).Port
	for place := 0; place < 3; place++ {
		syscall.Connect(open(), &syscall.SockaddrInet4{Port: port, Addr: here})
	}
	return port
}

// Connecting anew takes no longer than SetTimeout says, whatever the context allows.
func TestConnectingAnewIsOver(t *testing.T) {
	session := dialStandIn(t, func(s *standIn) {})
	session.link.Swap(nil).close()
	session.address = net.JoinHostPort("127.0.0.1", strconv.Itoa(fullPort(t)))
	session.SetTimeout(200 * time.Millisecond)
	ctx, cancel := context.WithTimeout(always, 20*time.Second)
	defer cancel()
	began := time.Now()
	_, err := session.Now(ctx)
	if took := time.Since(began); err == nil || took > 10*time.Second {
		t.Fatal(err, "after", took)
	}
}
