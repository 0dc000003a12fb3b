//go:build linux && (amd64 || arm64 || loong64 || mips64le || ppc64le || riscv64) && !truetime_nofile && !truetime_syscall

package truetime

import _ "unsafe" // for go:linkname

// nanotime is the clock by which the runtime measures: CLOCK_MONOTONIC in nanoseconds, without a system call where the
// kernel has one that needs none. The file nanotime.s lets the compiler take a function that has no body.
//
//go:linkname nanotime runtime.nanotime
func nanotime() int64
