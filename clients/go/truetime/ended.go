//go:build linux && !truetime_nofile

package truetime

import (
	"net"
	"syscall"
)

// hasEnded says whether the end of a connection is there to be received, or what nobody asked for. The goroutine that receives
// may not have run since.
func hasEnded(conn net.Conn) bool {
	raw, err := conn.(syscall.Conn).SyscallConn()
	if err != nil {
		return true
	}
	isThere := false
	err = raw.Control(func(descriptor uintptr) {
		var first [1]byte
		_, _, err := syscall.Recvfrom(int(descriptor), first[:], syscall.MSG_PEEK|syscall.MSG_DONTWAIT)
		isThere = err != syscall.EAGAIN && err != syscall.EINTR
	})
	return isThere || err != nil
}
