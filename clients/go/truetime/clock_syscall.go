//go:build linux && (amd64 || arm64 || loong64 || mips64le || ppc64le || riscv64) && !truetime_nofile && truetime_syscall

package truetime

// nanotime is no clock: isRuntimeClock says no, and the clock is read by a system call.
func nanotime() int64 { return -1 }
