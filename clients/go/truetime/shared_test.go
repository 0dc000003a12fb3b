//go:build linux && (amd64 || arm64 || loong64 || mips64le || ppc64le || riscv64) && !truetime_nofile

package truetime

import (
	"encoding/binary"
	"errors"
	"io/fs"
	"os"
	"os/user"
	"path/filepath"
	"runtime"
	"strconv"
	"strings"
	"sync"
	"sync/atomic"
	"syscall"
	"testing"
	"time"
	"unsafe"
)

// indexOf gives the index of a count: byte i of the count less byte i + 1, modulo 256.
func indexOf(count uint64) (index uint64) {
	for place := 0; place < 8; place++ {
		index |= uint64(byte(count>>(8*place))-byte(count>>(8*place)>>8)) << (8 * place)
	}
	return index
}

// scattered is a number that looks like chance, made from n and a field's place.
func scattered(n, field uint64) uint64 {
	x := n*0x9e3779b97f4a7c15 + field*0xbf58476d1ce4e5b9
	x = (x ^ x>>31) * 0x94d049bb133111eb
	return x ^ x>>29
}

// publicationOf makes every number from n, so a copy that mixes two publications shows.
func publicationOf(n uint64) Publication {
	lo, hi := scattered(n, 1)%MaxTime, scattered(n, 2)%MaxTime
	if lo > hi {
		lo, hi = hi, lo
	}
	usable := scattered(n, 7) | 1 // 0: nothing is published any more
	return Publication{scattered(n, 3) % 1_000_000, lo, hi, scattered(n, 4), usable, scattered(n, 5), n, scattered(n, 6) % (MaxDrift + 1)}
}

// clocks are those that a file may have.
var clocks = map[string]uint64{"by CLOCK_MONOTONIC": clockMonotonic, "by CLOCK_MONOTONIC_RAW": clockMonotonicRaw}

// slotWith gives the words of a slot with this publication, in a file by this clock. Where that is the raw one the publication is
// the second base, and what is by the raw clock is another one, of which a reader here tells nothing.
func slotWith(clock, count uint64, p Publication) [slotWords]uint64 {
	slot := [slotWords]uint64{indexOf(count), p.Clock, p.Lo, p.Hi, p.ValidUntil, p.Epoch, p.Number, p.Drift, p.UsableUntil}
	if clock == clockMonotonicRaw {
		other := Publication{Clock: MaxTime, Lo: 1, Hi: 2, ValidUntil: 3, UsableUntil: 4, Drift: MaxDrift}
		slot = [slotWords]uint64{indexOf(count), other.Clock, other.Lo, other.Hi, other.ValidUntil, p.Epoch, p.Number, other.Drift, other.UsableUntil,
			p.Clock, p.Lo, p.Hi, p.Drift, p.ValidUntil, p.UsableUntil}
	}
	return slot
}

// makeFile makes a file by this clock with this publication, and gives its path.
func makeFile(t testing.TB, clock, count uint64, p Publication) string {
	t.Helper()
	return makeFileOf(t, clock, slotWith(clock, count, p), count)
}

// makeFileOf makes a file by this clock with this slot, and gives its path.
func makeFileOf(t testing.TB, clock uint64, slot [slotWords]uint64, count uint64) string {
	t.Helper()
	boot, err := os.ReadFile("/proc/sys/kernel/random/boot_id")
	if err != nil {
		t.Fatal(err)
	}
	bytes := append([]byte(head), make([]byte, fileBytes-len(head))...)
	binary.LittleEndian.PutUint64(bytes[len(head):], clock)
	binary.LittleEndian.PutUint64(bytes[8*indexWord:], indexOf(count))
	copy(bytes[24:60], boot)
	for place, word := range slot {
		binary.LittleEndian.PutUint64(bytes[8*(slotOf(indexOf(count))+place):], word)
	}
	path := filepath.Join(t.TempDir(), "time")
	if err := os.WriteFile(path, bytes, 0o644); err != nil {
		t.Fatal(err)
	}
	return path
}

// me is the user of this process.
func me() string { return strconv.Itoa(os.Geteuid()) }

var ways = map[string]func(string, string) (*Client, error){"mapped": Open, "unmapped": OpenUnmapped}

func openFor(t testing.TB, way, path string) *Client {
	t.Helper()
	client, err := ways[way](path, me())
	if err != nil {
		t.Fatal(err)
	}
	t.Cleanup(func() { client.Close() })
	return client
}

func TestNow(t *testing.T) {
	clock := uint64(systemNanotime())
	const lo, hi = 1_000_000_000, 1_000_000_100
	for way, by := range eachWay() {
		for _, until := range []uint64{0, MaxTime} {
			client := openFor(t, by.way, makeFile(t, by.clock, 1, Publication{Clock: clock, Lo: lo, Hi: hi, ValidUntil: until, UsableUntil: noLimit, Epoch: 7, Number: 9}))
			before := uint64(systemNanotime())
			now, err := client.Now()
			after := uint64(systemNanotime())
			elapsed := uint64(now.Earliest - lo)
			want := Reading{Interval{lo + int64(elapsed), hi + int64(elapsed)}, 7, 9, until > 0}
			if err != nil || now != want || elapsed < before-clock || elapsed > after-clock {
				t.Error(way, now, err)
			}
			if !now.After(lo-1) || now.After(now.Earliest) || now.Before(now.Latest) || !now.Before(MaxTime) {
				t.Error(way, now)
			}
		}
	}
}

// A manner is a way of opening a file, and the clock of that.
type manner struct {
	way   string
	clock uint64
}

func eachWay() map[string]manner {
	each := make(map[string]manner)
	for way := range ways {
		for name, clock := range clocks {
			each[way+" "+name] = manner{way, clock}
		}
	}
	return each
}

// TestSlots has slots worked out by hand read by a reader that knows CLOCK_MONOTONIC alone: the first base where that is the clock
// of the file, and else the second one.
func TestSlots(t *testing.T) {
	const first, second = clockMonotonic, clockMonotonicRaw
	good := [slotWords]uint64{1, 1_000, 5, 15, 6_000, 7, 9, 200, 7_000, 500_000, 2_000, 3_000, 1_000, 510_000, 520_000}
	type change map[int]uint64
	for _, try := range []struct {
		clock   uint64
		changed change
		now     uint64
		want    Reading
		refusal error
	}{
		{first, nil, 1_000, Reading{Interval{5, 15}, 7, 9, true}, nil},
		{first, nil, 6_000, Reading{Interval{5_004, 5_016}, 7, 9, true}, nil},
		{first, nil, 6_001, Reading{Interval{5_004, 5_018}, 7, 9, false}, nil},
		{first, nil, 7_000, Reading{Interval{6_003, 6_017}, 7, 9, false}, nil},
		{first, nil, 7_001, Reading{}, TooWide},
		{first, nil, 999, Reading{}, ClockBack},
		{first, change{14: 0}, 1_000, Reading{Interval{5, 15}, 7, 9, true}, nil},
		{second, nil, 500_000, Reading{Interval{2_000, 3_000}, 7, 9, true}, nil},
		{second, nil, 510_000, Reading{Interval{11_990, 13_010}, 7, 9, true}, nil},
		{second, nil, 510_001, Reading{Interval{11_990, 13_012}, 7, 9, false}, nil},
		{second, nil, 520_000, Reading{Interval{21_980, 23_020}, 7, 9, false}, nil},
		{second, nil, 520_001, Reading{}, TooWide},
		{second, nil, 499_999, Reading{}, ClockBack},
		{second, nil, MaxTime + 1, Reading{}, ClockBack},
		{second, change{8: noLimit, 14: noLimit, 13: noLimit, 9: MaxTime}, MaxTime, Reading{Interval{2_000, 3_000}, 7, 9, true}, nil},
		// There is no second base, whatever the clock.
		{second, change{14: 0}, 500_000, Reading{}, NoSlewed},
		{second, change{14: 0}, 499_999, Reading{}, NoSlewed},
		{second, change{14: 0}, MaxTime + 1, Reading{}, NoSlewed},
		{second, change{9: 0, 10: 0, 11: 0, 12: 0, 13: 0, 14: 0}, 0, Reading{}, NoSlewed},
		// Nothing is published any more, whatever the second base is.
		{second, change{8: 0}, 500_000, Reading{}, Nothing},
		{second, change{8: 0, 14: 0}, 500_000, Reading{}, Nothing},
		// What no daemon writes, whichever base is read.
		{second, change{8: 0, 14: 0, 9: MaxTime + 1}, 0, Reading{}, NoSlot},
		{second, change{14: 0, 15: 1}, 0, Reading{}, NoSlot},
		{first, change{9: MaxTime + 1}, 1_000, Reading{}, NoSlot},
		{first, change{10: 3_001}, 1_000, Reading{}, NoSlot},
		{first, change{11: MaxTime + 1}, 1_000, Reading{}, NoSlot},
		{first, change{12: MaxDrift + 1}, 1_000, Reading{}, NoSlot},
		{first, change{15: 1}, 1_000, Reading{}, NoSlot},
		{second, change{1: MaxTime + 1}, 500_000, Reading{}, NoSlot},
		{second, change{2: 16}, 500_000, Reading{}, NoSlot},
		{second, change{3: MaxTime + 1}, 500_000, Reading{}, NoSlot},
		{second, change{7: MaxDrift + 1}, 500_000, Reading{}, NoSlot},
		{second, change{10: 3_001}, 500_000, Reading{}, NoSlot},
		{second, change{11: MaxTime + 1}, 500_000, Reading{}, NoSlot},
		{second, change{12: MaxDrift + 1}, 500_000, Reading{}, NoSlot},
		{second, change{0: 2}, 500_000, Reading{}, NoSlot},
	} {
		slot := good
		for place, word := range try.changed {
			slot[place] = word
		}
		path := makeFileOf(t, try.clock, slot, 1)
		for way := range ways {
			p, err := openFor(t, way, path).Read()
			var now Reading
			if err == nil {
				now, err = p.At(try.now)
			}
			if err != try.refusal || (err == nil && now != try.want) {
				t.Error(way, try, now, err)
			}
		}
	}
}

// TestClockOfFile has each file read by CLOCK_MONOTONIC, also one that takes the place of one by the other clock.
func TestClockOfFile(t *testing.T) {
	for way := range ways {
		var client *Client
		path := ""
		for turn, clock := range []uint64{clockMonotonicRaw, clockMonotonic, clockMonotonicRaw, clockMonotonic} {
			// The reading is what the clock shows.
			made := makeFile(t, clock, 1, Publication{UsableUntil: noLimit, Epoch: uint64(turn)})
			if client == nil {
				path, client = made, openFor(t, way, made)
			} else if err := os.Rename(made, path); err != nil {
				t.Fatal(err)
			}
			client.place.nextLook = 0
			before := systemNanotime()
			now, err := client.Now()
			if err != nil || now.Epoch != uint64(turn) || now.Earliest < before || now.Latest > systemNanotime() {
				t.Error(way, turn, now, err)
			}
		}
	}
}

func TestRefusals(t *testing.T) {
	clock := uint64(systemNanotime())
	for way, open := range ways {
		for _, try := range []struct {
			count uint64
			p     Publication
			want  error
		}{
			{0, Publication{}, Nothing},
			{1, Publication{}, Nothing},
			{1, Publication{Clock: clock + 1_000_000_000_000}, Nothing},
			{1, Publication{Clock: clock + 1_000_000_000_000, UsableUntil: noLimit}, ClockBack},
			{1, Publication{Clock: clock + 1_000_000_000_000, UsableUntil: 1}, ClockBack},
			{1, Publication{UsableUntil: 1}, TooWide},
			{1, Publication{Lo: 2, Hi: 1}, NoSlot},
			{1, Publication{Drift: MaxDrift + 1, UsableUntil: noLimit}, NoSlot},
		} {
			if now, err := openFor(t, way, makeFile(t, clockMonotonic, try.count, try.p)).Now(); err != try.want || now.Interval != allTimes || now.Fresh {
				t.Error(way, now, err, "in place of", try.want)
			}
		}
		path := makeFile(t, clockMonotonic, 1, Publication{UsableUntil: noLimit})
		if _, err := open(path+"-not", me()); !errors.Is(err, NoFile) || !errors.Is(err, fs.ErrNotExist) {
			t.Error(way, err)
		}
		if _, err := open(path, strconv.Itoa(os.Geteuid()+1)); !errors.Is(err, OtherFile) || !errors.Is(err, ErrFileOwner) {
			t.Error(way, err)
		}
		client := openFor(t, way, path)
		if _, err := client.Read(); err != nil {
			t.Error(way, err)
		}
		client.Close()
		if now, err := client.Now(); !errors.Is(err, NoFile) || now.Interval != allTimes {
			t.Error(way, now, err)
		}
	}
}

// TestClosing closes clients while others read, and has what nobody uses unmapped.
func TestClosing(t *testing.T) {
	path := makeFile(t, clockMonotonicRaw, 1, publicationOf(1))
	for turn := 0; turn < 20; turn++ {
		for way := range ways {
			client := openFor(t, way, path)
			started := make(chan struct{})
			var reader sync.WaitGroup
			reader.Add(1)
			go func() {
				defer reader.Done()
				p, err := client.Read()
				for close(started); err == nil; p, err = client.Read() {
					if p != publicationOf(1) {
						t.Error(p)
						return
					}
				}
				if !errors.Is(err, NoFile) {
					t.Error(err)
				}
			}()
			<-started
			client.Close()
			runtime.GC()
			reader.Wait()
		}
	}
	for try := 0; isMapped(t, path); try++ {
		if try == 1000 {
			t.Fatal("it stays mapped")
		}
		runtime.GC()
		time.Sleep(time.Millisecond)
	}
}

func isMapped(t *testing.T, path string) bool {
	maps, err := os.ReadFile("/proc/self/maps")
	if err != nil {
		t.Fatal(err)
	}
	return strings.Contains(string(maps), path)
}

// TestCounts has publications at counts where bytes of the index change.
func TestCounts(t *testing.T) {
	for _, count := range []uint64{1, 2, 255, 256, 257, 65_535, 65_536, 1<<32 - 1, 1 << 32, 1 << 56, 1<<64 - 1} {
		for way, by := range eachWay() {
			if p, err := openFor(t, by.way, makeFile(t, by.clock, count, publicationOf(count))).Read(); err != nil || p != publicationOf(count) {
				t.Error(way, count, p, err)
			}
		}
	}
}

// readOn reads until it is over, and gives how often it read. Each copy has to be whole, and none older than the last.
func readOn(t *testing.T, client *Client, isOver *atomic.Bool) (reads int) {
	for last := uint64(0); !isOver.Load(); {
		p, err := client.Read()
		if err == Busy {
			continue
		}
		if err != nil || p != publicationOf(p.Number) || p.Number < last {
			t.Errorf("%v %v after %d", p, err, last)
			return reads
		}
		last = p.Number
		reads++
	}
	return reads
}

// publishBeside has readers beside a writer that never pauses, until each has read some thousand times, or for some seconds.
func publishBeside(t *testing.T, clients []*Client, publish func(n uint64)) {
	var isOver atomic.Bool
	var readers sync.WaitGroup
	for _, client := range clients {
		readers.Add(1)
		go func(client *Client) {
			defer readers.Done()
			t.Log(readOn(t, client, &isOver), "reads")
		}(client)
	}
	began, n := time.Now(), uint64(2)
	for ; time.Since(began) < 300*time.Millisecond; n++ {
		publish(n)
	}
	isOver.Store(true)
	readers.Wait()
	t.Log(n, "publications")
}

// A page is a file in memory of this process, where checks for races see its writer and its readers. Its clock is CLOCK_MONOTONIC_RAW,
// so it is read by the second base, unless its second word says that it is CLOCK_MONOTONIC.
type page [fileWords]uint64

func (p *page) clock() uint64 {
	if p[1] == clockMonotonic {
		return clockMonotonic
	}
	return clockMonotonicRaw
}

func (p *page) publish(count uint64, published Publication) {
	slot := slotWith(p.clock(), count, published)
	for place := range slot {
		atomic.StoreUint64(&p[slotOf(slot[0])+place], slot[place])
	}
	atomic.StoreUint64(&p[indexWord], slot[0])
}

func (p *page) client() *Client {
	client := &Client{byRuntime: isRuntimeClock()}
	client.mapped = unsafe.Pointer(&mapping{(*[fileWords]uint64)(p), p.clock() == clockMonotonicRaw})
	return client
}

func TestBesideWriter(t *testing.T) {
	for _, clock := range clocks {
		words := page{1: clock}
		words.publish(1, publicationOf(1))
		publishBeside(t, []*Client{words.client(), words.client()}, func(n uint64) { words.publish(n, publicationOf(n)) })
	}
}

// TestNowBesideWriter has each publication made at the clock of that moment: a reading never has an older one.
func TestNowBesideWriter(t *testing.T) {
	var words page
	publish := func(n uint64) {
		clock := uint64(systemNanotime())
		words.publish(n, Publication{Clock: clock, Hi: MaxTime, UsableUntil: noLimit, Number: n})
	}
	publish(1)
	client := words.client()
	began, n := time.Now(), uint64(1)
	var writer sync.WaitGroup
	writer.Add(1)
	go func() {
		defer writer.Done()
		for ; time.Since(began) < 100*time.Millisecond; n++ {
			publish(n + 1)
		}
	}()
	for time.Since(began) < 100*time.Millisecond {
		if now, err := client.Now(); err != nil && err != Busy {
			t.Error(now, err)
			break
		}
	}
	writer.Wait()
}

// TestBesideDaemon has the writer write as the daemon does: the slot, and then one byte of the index.
func TestBesideDaemon(t *testing.T) {
	path := makeFile(t, clockMonotonicRaw, 1, publicationOf(1))
	file, err := os.OpenFile(path, os.O_WRONLY, 0)
	if err != nil {
		t.Fatal(err)
	}
	defer file.Close()
	publishBeside(t, []*Client{openFor(t, "mapped", path), openFor(t, "mapped", path), openFor(t, "unmapped", path)}, func(n uint64) {
		var bytes [8 * slotWords]byte
		for place, word := range slotWith(clockMonotonicRaw, n, publicationOf(n)) {
			binary.LittleEndian.PutUint64(bytes[8*place:], word)
		}
		at := 0
		for index, before := indexOf(n), indexOf(n-1); byte(index>>(8*at)) == byte(before>>(8*at)); {
			at++
		}
		_, failed := file.WriteAt(bytes[:], int64(8*slotOf(indexOf(n))))
		_, also := file.WriteAt([]byte{byte(indexOf(n) >> (8 * at))}, int64(8*indexWord+at))
		if failed != nil || also != nil {
			t.Error(failed, also)
		}
	})
}

// TestShorter has files become shorter after they were opened, and whole again.
func TestShorter(t *testing.T) {
	path := makeFile(t, clockMonotonicRaw, 1, publicationOf(1))
	whole, err := os.ReadFile(path)
	if err != nil {
		t.Fatal(err)
	}
	client := openFor(t, "unmapped", path)
	for _, length := range []int{319, 192, 23, 16, 0} {
		if err := os.WriteFile(path, whole[:length], 0o644); err != nil {
			t.Fatal(err)
		}
		if _, err := OpenUnmapped(path, me()); !errors.Is(err, OtherFile) {
			t.Error(length, err)
		}
		if _, err := client.Now(); !errors.Is(err, NoFile) {
			t.Error(length, err)
		}
		if err := os.WriteFile(path, whole, 0o644); err != nil {
			t.Fatal(err)
		}
		if p, err := client.Read(); err != nil || p != publicationOf(1) {
			t.Error(length, p, err)
		}
	}
}

// TestAllocations has a mapped file read without allocating.
func TestAllocations(t *testing.T) {
	client := openFor(t, "mapped", makeFile(t, clockMonotonicRaw, 1, Publication{UsableUntil: noLimit}))
	if often := testing.AllocsPerRun(1000, func() { client.Now() }); often != 0 {
		t.Error(often)
	}
}

var sum uint64

func benchmarkNow(b *testing.B, way string, byRuntime bool) {
	client := openFor(b, way, makeFile(b, clockMonotonicRaw, 1, Publication{UsableUntil: noLimit}))
	client.byRuntime = byRuntime
	b.ResetTimer()
	for turn := 0; turn < b.N; turn++ {
		now, err := client.Now()
		if err != nil {
			b.Fatal(err)
		}
		sum += uint64(now.Earliest)
	}
}

func BenchmarkNow(b *testing.B)        { benchmarkNow(b, "mapped", isRuntimeClock()) }
func BenchmarkNowSyscall(b *testing.B) { benchmarkNow(b, "mapped", false) }
func BenchmarkUnmapped(b *testing.B)   { benchmarkNow(b, "unmapped", isRuntimeClock()) }

func BenchmarkRead(b *testing.B) {
	client := openFor(b, "mapped", makeFile(b, clockMonotonicRaw, 1, Publication{UsableUntil: noLimit}))
	b.ResetTimer()
	for turn := 0; turn < b.N; turn++ {
		p, err := client.Read()
		if err != nil {
			b.Fatal(err)
		}
		sum += p.Hi
	}
}

func BenchmarkClock(b *testing.B) {
	for turn := 0; turn < b.N; turn++ {
		sum += uint64(nanotime())
	}
}

func BenchmarkClockSyscall(b *testing.B) {
	for turn := 0; turn < b.N; turn++ {
		sum += uint64(systemNanotime())
	}
}

// TestCausesOfFiles has each check of a file, and what the system said, in the error.
func TestCausesOfFiles(t *testing.T) {
	for way, open := range ways {
		good := makeFile(t, clockMonotonicRaw, 1, publicationOf(1))
		if client, err := open(good, "no-such-user"); client != nil || !errors.Is(err, OtherFile) || !errors.As(err, new(user.UnknownUserError)) {
			t.Error(way, err)
		}
		if here, err := user.Current(); err == nil {
			if client, err := open(good, here.Username); err != nil {
				t.Error(way, err)
			} else {
				client.Close()
			}
		}
		if _, err := open(good+"/x", me()); !errors.Is(err, NoFile) || !errors.Is(err, syscall.ENOTDIR) {
			t.Error(way, err)
		}
		whole, err := os.ReadFile(good)
		if err != nil {
			t.Fatal(err)
		}
		for _, try := range []struct {
			cause  error
			change func(file []byte) ([]byte, os.FileMode)
		}{
			{ErrFileKind, func(file []byte) ([]byte, os.FileMode) { return file[1:], 0o644 }},
			{ErrFileWritable, func(file []byte) ([]byte, os.FileMode) { return file, 0o664 }},
			{ErrFileFormat, func(file []byte) ([]byte, os.FileMode) { file[3] = '2'; return file, 0o644 }},
			{ErrFileFormat, func(file []byte) ([]byte, os.FileMode) { file[8] = 7; return file, 0o644 }},
			{ErrFileFormat, func(file []byte) ([]byte, os.FileMode) { file[15] = 1; return file, 0o644 }},
			{ErrFileFormat, func(file []byte) ([]byte, os.FileMode) { file[63] = 1; return file, 0o644 }},
			{ErrFileClock, func(file []byte) ([]byte, os.FileMode) { file[24] ^= 1; return file, 0o644 }},
		} {
			cause := try.cause
			bytes, mode := try.change(append([]byte(nil), whole...))
			other := filepath.Join(t.TempDir(), "time")
			if err := os.WriteFile(other, bytes, mode); err != nil {
				t.Fatal(err)
			}
			if err := os.Chmod(other, mode); err != nil {
				t.Fatal(err)
			}
			var refusal Refusal
			_, err := open(other, me())
			if !errors.Is(err, OtherFile) || !errors.Is(err, cause) || !errors.As(err, &refusal) || refusal != OtherFile {
				t.Error(way, err, "in place of", cause)
			}
			if err != nil && !strings.HasSuffix(err.Error(), cause.Error()) {
				t.Error(err)
			}
		}
	}
}
