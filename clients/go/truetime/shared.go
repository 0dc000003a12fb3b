//go:build linux && (amd64 || arm64 || loong64 || mips64le || ppc64le || riscv64) && !truetime_nofile

package truetime

import (
	"encoding/binary"
	"errors"
	"io/fs"
	"os"
	"os/user"
	"runtime"
	"strconv"
	"strings"
	"sync"
	"sync/atomic"
	"syscall"
	"time"
	"unsafe"
)

const (
	fileWords = firstSlot + 2*slotWords
	fileBytes = 8 * fileWords
	indexWord = 2
	firstSlot = 8
	slotWords = 16
	tries     = 1000
	lowBits   = 0x0101_0101_0101_0101
	// The time from one look at the path to the next.
	lookNanoseconds = 1_000_000_000
	// The format and the length. The clock follows.
	head = "TTS3\x40\x01\x00\x00"
	// CLOCK_MONOTONIC_RAW, which the runtime does not show. A file by it has a second base by CLOCK_MONOTONIC.
	clockMonotonicRaw = 4
)

// A Client reads the time from a file of a daemon. Any number of goroutines may use it.
type Client struct {
	mapped    unsafe.Pointer         // *mapping: a call of atomic.Pointer's Load is not inlined
	file      atomic.Pointer[opened] // where it is not mapped
	byRuntime bool                   // whether the clock of the runtime is CLOCK_MONOTONIC
	place     place

	hasMaxWidth bool
	maxWidth    int64
}

// A place is where a file is, and which one is read. Who looks at the path, or closes the client, has it locked.
type place struct {
	sync.Mutex
	path     string
	owner    uint64
	isMapped bool
	read     fs.FileInfo // nil where the client is closed
	nextLook int64       // the clock reading from which on the path may be looked at again
}

var errClosed = &FileError{NoFile, fs.ErrClosed}

// A mapping is the memory of a mapped file.
type mapping struct {
	words *[fileWords]uint64 // loaded by sync/atomic alone
	isRaw bool               // whether its clock is CLOCK_MONOTONIC_RAW
}

// An opened file is one that is not mapped.
type opened struct {
	*os.File
	isRaw bool
}

// Open maps the file at this path, which this user, a name or a number, has to own. It refuses with NoFile and OtherFile, each
// in a FileError. Where an owner of the file or of its folder truncates the file, a reading ends the process (SIGBUS); one of
// OpenUnmapped refuses.
//
// A call that would refuse, or give a reading that is not Fresh, looks at the path, at most once a second. Where another file is
// there, as behind a restart, the client opens that by the same rules, and answers by it.
//
// The clock is CLOCK_MONOTONIC. Where that of the file is CLOCK_MONOTONIC_RAW, which the runtime does not show, the file also has
// the time by CLOCK_MONOTONIC: NoSlewed is the refusal while it has not. It reads version 3 of the format (TTS3).
func Open(path, owner string) (*Client, error) { return open(path, owner, true) }

// OpenUnmapped opens it as Open, and each call reads it, by three system calls.
func OpenUnmapped(path, owner string) (*Client, error) { return open(path, owner, false) }

func open(path, owner string, isMapped bool) (*Client, error) {
	uid, err := userOf(owner)
	if err != nil {
		return nil, &FileError{OtherFile, err}
	}
	// A path that does not begin at the root is one from here, also where the process goes elsewhere.
	if here, err := os.Getwd(); err == nil && !strings.HasPrefix(path, "/") {
		path = here + "/" + path
	}
	client := &Client{byRuntime: isRuntimeClock()}
	client.place.path, client.place.owner, client.place.isMapped = path, uid, isMapped
	if err := client.take(); err != nil {
		return nil, err
	}
	return client, nil
}

// SetMaxWidth has readings that are wider than this refused with ReadingTooWide, and so the timestamps by them; the machine's own
// max_width need not be set. Call it before other goroutines use the client.
func (c *Client) SetMaxWidth(width time.Duration) { c.hasMaxWidth, c.maxWidth = true, int64(width) }

// take opens the file at the path, and has it read in place of the one before. That one is closed, or unmapped once no
// goroutine reads it.
func (c *Client) take() error {
	file, found, isRaw, err := openFile(c.place.path, c.place.owner)
	if err != nil {
		return err
	}
	if c.place.isMapped {
		defer file.Close()
		bytes, err := syscall.Mmap(int(file.Fd()), 0, fileBytes, syscall.PROT_READ, syscall.MAP_SHARED)
		if err != nil {
			return &FileError{NoFile, err}
		}
		mapped := &mapping{(*[fileWords]uint64)(unsafe.Pointer(&bytes[0])), isRaw} // it begins at a page
		runtime.SetFinalizer(mapped, func(*mapping) { syscall.Munmap(bytes) })
		atomic.StorePointer(&c.mapped, unsafe.Pointer(mapped))
	} else if old := c.file.Swap(&opened{file, isRaw}); old != nil {
		old.Close()
	}
	c.place.read = found
	return nil
}

// isRenewed looks at the path, unless it was looked at within a second, and takes another file that is there, where it passes the
// checks of Open. It says whether it did.
func (c *Client) isRenewed() bool {
	if !c.place.TryLock() {
		return false
	}
	defer c.place.Unlock()
	now := systemNanotime()
	if c.place.read == nil || now < c.place.nextLook {
		return false
	}
	c.place.nextLook = now + lookNanoseconds
	there, err := os.Lstat(c.place.path)
	return err == nil && !os.SameFile(there, c.place.read) && c.take() == nil
}

// Close closes the client: later calls refuse with NoFile. It may come while others are in a call; the file is unmapped once
// none is.
func (c *Client) Close() error {
	c.place.Lock()
	defer c.place.Unlock()
	c.place.read = nil
	atomic.StorePointer(&c.mapped, nil)
	if file := c.file.Swap(nil); file != nil {
		return file.Close()
	}
	return nil
}

// Read gives the last publication, by CLOCK_MONOTONIC. It refuses with Nothing, Busy and NoSlot, then with Nothing where nothing is
// published any more and NoSlewed where that is not by CLOCK_MONOTONIC, and with NoFile where the client is closed, or where the file
// is not mapped and has become shorter.
func (c *Client) Read() (Publication, error) {
	var published Publication
	err := c.read(&published)
	if err != nil && c.isRenewed() {
		err = c.read(&published)
	}
	if err != nil {
		return Publication{}, err
	}
	return published, nil
}

// Now gives the time now. It refuses as Read, and with ClockFailed, ClockBack and TooWide, and with ReadingTooWide by SetMaxWidth.
func (c *Client) Now() (Reading, error) {
	var published Publication
	if err := c.read(&published); err != nil {
		return c.anew(Reading{Interval: allTimes}, err)
	}
	// The clock is read after the publication, so it is not below that of the publication.
	var now int64
	if c.byRuntime {
		now = nanotime()
	} else {
		now = systemNanotime()
	}
	if now < 0 {
		return Reading{Interval: allTimes}, ClockFailed
	}
	clock := uint64(now)
	if err := published.refusalAt(clock); err != nil {
		return c.anew(Reading{Interval: allTimes}, err)
	}
	reading := Reading{published.aged(clock - published.Clock), published.Epoch, published.Number, published.isFreshAt(clock)}
	if c.hasMaxWidth && reading.Latest-reading.Earliest > c.maxWidth {
		return c.anew(Reading{Interval: allTimes}, ReadingTooWide)
	}
	if !reading.Fresh {
		return c.anew(reading, nil)
	}
	return reading, nil
}

// anew gives what Now has found, unless another file is at the path.
func (c *Client) anew(found Reading, err error) (Reading, error) {
	if c.isRenewed() {
		return c.Now()
	}
	return found, err
}

// read is Read into a variable of the caller, which has no publication where it refuses.
//
// The copy of a slot is whole where the index is the same before and after: a publication changes the index before the next
// one writes into this slot, and no index comes twice. Atomic loads of Go stay in their order.
func (c *Client) read(published *Publication) error {
	mapped := (*mapping)(atomic.LoadPointer(&c.mapped))
	if mapped == nil {
		return c.readUnmapped(published)
	}
	words := mapped.words
	for try := 0; try < tries; try++ {
		index := atomic.LoadUint64(&words[indexWord])
		slot := (*[slotWords]uint64)(words[firstSlot:])
		if isOdd(index) {
			slot = (*[slotWords]uint64)(words[firstSlot+slotWords:])
		}
		err := published.take(index, slot, mapped.isRaw)
		again := atomic.LoadUint64(&words[indexWord])
		runtime.KeepAlive(mapped) // it is not unmapped before
		if again == index {
			return err
		}
	}
	return Busy
}

// readUnmapped is read of a file that is not mapped.
func (c *Client) readUnmapped(published *Publication) error {
	for try := 0; try < tries; try++ {
		file := c.file.Load()
		if file == nil {
			return errClosed
		}
		var word [slotWords]uint64
		index, again, err := copyUnmapped(file.File, &word)
		if c.file.Load() != file {
			continue // it was replaced, and closed
		}
		if err != nil {
			return &FileError{NoFile, err}
		}
		if again != index {
			continue
		}
		return published.take(index, &word, file.isRaw)
	}
	return Busy
}

// A base is a clock reading, the interval at it, and the drift since.
type base struct {
	clock, lo, hi, drift uint64
}

func (b base) isInRange() bool {
	return b.clock <= MaxTime && b.lo <= b.hi && b.hi <= MaxTime && b.drift <= MaxDrift
}

// take copies the publication of the slot that is current at this index, by CLOCK_MONOTONIC: the first base, or the second one where
// the clock of the file is the raw one. It gives the refusal, or nil: Nothing, NoSlot, Nothing where nothing is published any more,
// and NoSlewed where there is no second base. Both are judged, whichever is read.
func (p *Publication) take(index uint64, slot *[slotWords]uint64, isRaw bool) error {
	echo, zero, usable := atomic.LoadUint64(&slot[0]), atomic.LoadUint64(&slot[15]), atomic.LoadUint64(&slot[8])
	first := base{atomic.LoadUint64(&slot[1]), atomic.LoadUint64(&slot[2]), atomic.LoadUint64(&slot[3]), atomic.LoadUint64(&slot[7])}
	slewed := base{atomic.LoadUint64(&slot[9]), atomic.LoadUint64(&slot[10]), atomic.LoadUint64(&slot[11]), atomic.LoadUint64(&slot[12])}
	read, validUntil, usableUntil := first, &slot[4], &slot[8]
	if isRaw {
		read, validUntil, usableUntil = slewed, &slot[13], &slot[14]
	}
	p.Clock, p.Lo, p.Hi, p.Drift = read.clock, read.lo, read.hi, read.drift
	p.ValidUntil, p.UsableUntil = atomic.LoadUint64(validUntil), atomic.LoadUint64(usableUntil)
	p.Epoch, p.Number = atomic.LoadUint64(&slot[5]), atomic.LoadUint64(&slot[6])
	switch {
	case index == 0:
		return Nothing
	case echo != index || zero != 0 || !first.isInRange() || !slewed.isInRange():
		return NoSlot
	case usable == 0:
		return Nothing
	case p.UsableUntil == 0:
		return NoSlewed
	}
	return nil
}

// isOdd says whether the count of publications is odd at this index: an odd number of its eight bytes are odd. The product has
// their number, at most 8, in its highest byte.
func isOdd(index uint64) bool {
	return index&lowBits*lowBits>>56&1 != 0
}

// slotOf gives the word at which the slot begins that is current at this index.
func slotOf(index uint64) int {
	if isOdd(index) {
		return firstSlot + slotWords
	}
	return firstSlot
}

// copyUnmapped copies the slot that is current at the index, and gives the index and the index again.
func copyUnmapped(file *os.File, word *[slotWords]uint64) (index, again uint64, err error) {
	var one [1]uint64
	if err = readWords(file, indexWord, one[:]); err != nil {
		return 0, 0, err
	}
	index = one[0]
	if err = readWords(file, slotOf(index), word[:]); err != nil {
		return 0, 0, err
	}
	err = readWords(file, indexWord, one[:])
	return index, one[0], err
}

// readWords reads words of a file from this place on. It fails where the file has not that many.
func readWords(file *os.File, place int, words []uint64) error {
	var bytes [8 * slotWords]byte
	if _, err := file.ReadAt(bytes[:8*len(words)], int64(8*place)); err != nil {
		return err
	}
	for word := range words {
		words[word] = binary.LittleEndian.Uint64(bytes[8*word:])
	}
	return nil
}

// openFile opens the file at this path, where it is such a file, and says whether its clock is CLOCK_MONOTONIC_RAW.
func openFile(path string, owner uint64) (*os.File, fs.FileInfo, bool, error) {
	// A FIFO in place of the file does not block the opening.
	file, err := os.OpenFile(path, os.O_RDONLY|syscall.O_NOFOLLOW|syscall.O_NONBLOCK, 0)
	if err != nil {
		return nil, nil, false, &FileError{NoFile, err}
	}
	var clock uint64
	found, err := file.Stat()
	if err != nil {
		err = &FileError{NoFile, err}
	} else {
		clock, err = clockOf(file, found, owner)
	}
	if err != nil {
		file.Close()
		return nil, nil, false, err
	}
	return file, found, clock == clockMonotonicRaw, nil
}

// userOf gives the number of a user.
func userOf(owner string) (uint64, error) {
	if uid, err := strconv.ParseUint(owner, 10, 32); err == nil {
		return uid, nil
	}
	found, err := user.Lookup(owner)
	if err != nil {
		return 0, err
	}
	return strconv.ParseUint(found.Uid, 10, 32)
}

// clockOf gives the clock of an open file, where it is such a file.
func clockOf(file *os.File, found fs.FileInfo, owner uint64) (uint64, error) {
	of, ok := found.Sys().(*syscall.Stat_t)
	switch {
	case !ok || !found.Mode().IsRegular() || found.Size() != fileBytes:
		return 0, &FileError{OtherFile, ErrFileKind}
	case uint64(of.Uid) != owner:
		return 0, &FileError{OtherFile, ErrFileOwner}
	case found.Mode().Perm()&0o022 != 0:
		return 0, &FileError{OtherFile, ErrFileWritable}
	}
	var bytes [8 * firstSlot]byte
	if _, err := file.ReadAt(bytes[:], 0); err != nil {
		return 0, &FileError{NoFile, err}
	}
	clock := binary.LittleEndian.Uint64(bytes[len(head):])
	isClock := clock == clockMonotonic || clock == clockMonotonicRaw
	// The boot has 36 letters, and 4 zeros follow.
	if string(bytes[:len(head)]) != head || !isClock || string(bytes[60:]) != "\x00\x00\x00\x00" {
		return 0, &FileError{OtherFile, ErrFileFormat}
	}
	if !isSameClock(string(bytes[24:60])) {
		return 0, &FileError{OtherFile, ErrFileClock}
	}
	return clock, nil
}

// isSameClock says whether both clocks are here what they are to the daemon: the same boot, and no time namespace that
// shifts them.
func isSameClock(boot string) bool {
	here, err := os.ReadFile("/proc/sys/kernel/random/boot_id")
	if err != nil || !strings.HasPrefix(string(here), boot) {
		return false
	}
	offsets, err := os.ReadFile("/proc/self/timens_offsets")
	if errors.Is(err, fs.ErrNotExist) {
		return true // a kernel without time namespaces
	}
	first, _, _ := strings.Cut(string(offsets), "\n")
	return err == nil && strings.Join(strings.Fields(first), " ") == "monotonic 0 0"
}
