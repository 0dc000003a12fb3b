//go:build !(linux && (amd64 || arm64 || loong64 || mips64le || ppc64le || riscv64)) || truetime_nofile

package truetime

import "time"

// A Client reads the time from a file of a daemon, on Linux alone, on a little-endian machine of 64 bits.
type Client struct{ _ int }

// Open fails with ErrUnsupported on this system.
func Open(path, owner string) (*Client, error) { return nil, ErrUnsupported }

// OpenUnmapped fails with ErrUnsupported on this system.
func OpenUnmapped(path, owner string) (*Client, error) { return nil, ErrUnsupported }

// Close does nothing on this system.
func (c *Client) Close() error { return nil }

// SetMaxWidth does nothing on this system.
func (c *Client) SetMaxWidth(width time.Duration) {}

// Read fails with ErrUnsupported on this system.
func (c *Client) Read() (Publication, error) { return Publication{}, ErrUnsupported }

// Now fails with ErrUnsupported on this system.
func (c *Client) Now() (Reading, error) { return Reading{Interval: allTimes}, ErrUnsupported }
