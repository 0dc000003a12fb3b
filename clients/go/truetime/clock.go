//go:build linux && (amd64 || arm64 || loong64 || mips64le || ppc64le || riscv64) && !truetime_nofile

package truetime

import (
	"syscall"
	"unsafe"
)

// clockMonotonic is CLOCK_MONOTONIC, the clock of readings. Package time shows it as a difference alone.
const clockMonotonic = 1

// systemNanotime gives the machine's clock in nanoseconds by a system call, and -1 where that fails.
func systemNanotime() int64 {
	var now syscall.Timespec
	_, _, failed := syscall.RawSyscall(syscall.SYS_CLOCK_GETTIME, clockMonotonic, uintptr(unsafe.Pointer(&now)), 0)
	if failed != 0 || now.Sec < 0 {
		return -1
	}
	if now.Sec > MaxTime/1_000_000_000 {
		return MaxTime + 1 // which Publication.At refuses
	}
	return now.Sec*1_000_000_000 + now.Nsec
}

// isRuntimeClock says whether the clock of the runtime shows CLOCK_MONOTONIC: it lies between two looks at that.
func isRuntimeClock() bool {
	before, now, after := systemNanotime(), nanotime(), systemNanotime()
	return before >= 0 && before <= now && now <= after
}
