//go:build !(linux && (amd64 || arm64 || loong64 || mips64le || ppc64le || riscv64)) || truetime_nofile

package truetime

import "testing"

func TestUnsupported(t *testing.T) {
	for _, open := range []func(string, string) (*Client, error){Open, OpenUnmapped} {
		if client, err := open("/run/truetime/time", "0"); client != nil || err != ErrUnsupported {
			t.Error(client, err)
		}
	}
	now, err := new(Client).Now()
	if now.Interval != allTimes || now.Fresh || err != ErrUnsupported {
		t.Error(now, err)
	}
}
