//go:build linux && (amd64 || arm64 || loong64 || mips64le || ppc64le || riscv64) && !truetime_nofile

package truetime

import "testing"

// TestClocks has the clock of the runtime, where it is taken, show the same as the system call.
func TestClocks(t *testing.T) {
	byRuntime := isRuntimeClock()
	t.Log("by the runtime:", byRuntime)
	for try := 0; try < 1000; try++ {
		before, now, after := systemNanotime(), systemNanotime(), systemNanotime()
		if byRuntime {
			before, now, after = systemNanotime(), nanotime(), systemNanotime()
		}
		if before <= 0 || now < before || now > after {
			t.Fatal(before, now, after)
		}
	}
}
