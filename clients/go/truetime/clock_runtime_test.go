//go:build linux && (amd64 || arm64 || loong64 || mips64le || ppc64le || riscv64) && !truetime_nofile && !truetime_syscall

package truetime

import "testing"

func TestRuntimeClock(t *testing.T) {
	if !isRuntimeClock() {
		t.Error("the clock of the runtime is not CLOCK_MONOTONIC: each reading makes a system call")
	}
}
