package truetime

import (
	"errors"
	"fmt"
	"strconv"
)

// A Refusal is the number of a refusal, 1 to 65535. Compare it by errors.Is, or get it by errors.As.
type Refusal uint16

// The refusals that a caller may want to tell apart; docs/FORMATS.md has all.
const (
	OutOfMemory    Refusal = 1    // the service is out of memory
	LeaseBackwards Refusal = 101  // the ends of the lease are out of order
	LeasePastMax   Refusal = 102  // the upper end of the lease is above the greatest time
	Nothing        Refusal = 801  // the daemon has published nothing so far, or nothing is published any more
	ClockBack      Refusal = 802  // the clock is below that of the publication, or above the greatest time
	ClockFailed    Refusal = 803  // the clock gave no reading
	UsedUp         Refusal = 901  // no timestamp is left up to the greatest time
	FloorTooFar    Refusal = 902  // the floor is too far ahead
	LeaseOver      Refusal = 903  // the least timestamp is above the upper end of the lease, or a session has lost its lease
	TooManyCommits Refusal = 1001 // as many commits are pending as may
	IDUsed         Refusal = 1002 // a commit with this id is pending or was released
	StampUsed      Refusal = 1003 // another commit has this timestamp
	NoLine         Refusal = 1101 // the service knows no such line
	LineTooLong    Refusal = 1102 // the line has more than 64 bytes
	CommitPassed   Refusal = 1103 // a later commit has begun in this session
	CommitPending  Refusal = 1104 // the last commit is not known as released
	NoFile         Refusal = 1701 // the file cannot be opened, mapped or read, or the client is closed
	OtherFile      Refusal = 1702 // not such a file, or of another owner, writable by others, of another boot or another clock
	NoSlot         Refusal = 1703 // no daemon wrote what stands there
	Busy           Refusal = 1704 // another publication came during each of the tries
	TooWide        Refusal = 1708 // the clock is past the last reading at which the publication may be used
	NoSlewed       Refusal = 1710 // the file gives nothing by CLOCK_MONOTONIC until the daemon's next round, or longer
	FloorAboveCap  Refusal = 1821 // the floor, or the lower end of the lease, is further ahead than the machine allows
	CommitGone     Refusal = 1822 // the commit is pending no more: its connection broke, or the machine ends
	Broken         Refusal = 1823 // the machine knows that an assumption of the service is broken
	ReadingTooWide Refusal = 1824 // the reading is wider than the machine allows, or than max_width of this client
)

var meanings = map[Refusal]string{
	OutOfMemory:    "the service is out of memory",
	LeaseBackwards: "the ends of the lease are out of order",
	LeasePastMax:   "the upper end of the lease is above the greatest time",
	Nothing:        "the daemon has published nothing so far, or nothing is published any more",
	ClockBack:      "the clock is below that of the publication, or above the greatest time",
	ClockFailed:    "the clock gave no reading",
	UsedUp:         "no timestamp is left up to the greatest time",
	FloorTooFar:    "the floor is too far ahead",
	LeaseOver:      "the least timestamp is above the upper end of the lease, or the session has lost its lease: set it again",
	TooManyCommits: "as many commits are pending as may",
	IDUsed:         "a commit with this id is pending or was released",
	StampUsed:      "another commit has this timestamp",
	NoLine:         "the service knows no such line",
	LineTooLong:    "the line has more than 64 bytes",
	CommitPassed:   "a later commit has begun in this session",
	CommitPending:  "the last commit is not known as released",
	NoFile:         "the file cannot be opened, mapped or read, or the client is closed",
	OtherFile:      "not such a file, or of another owner, writable by others, of another boot or another clock",
	NoSlot:         "no daemon wrote what stands there",
	Busy:           "another publication came during each of the tries",
	TooWide:        "the clock is past the last reading at which the publication may be used",
	NoSlewed:       "the file gives nothing by CLOCK_MONOTONIC",
	FloorAboveCap:  "the floor, or the lower end of the lease, is further ahead than the machine allows",
	CommitGone:     "the commit is pending no more: its connection broke, or the machine ends",
	Broken:         "the machine knows that an assumption of the service is broken",
	ReadingTooWide: "the reading is wider than the machine allows, or than max_width of this client",
}

func (r Refusal) Error() string {
	meaning, ok := meanings[r]
	if !ok {
		meaning = "see docs/reference/refusals.md"
	}
	return "truetime: refused " + strconv.Itoa(int(r)) + ": " + meaning
}

// neverBegins says whether this refusal of a commit's first line says that the commit was not begun. Another one may also come
// of the step that would have released it: then it is pending, and has a timestamp.
func (r Refusal) neverBegins() bool {
	switch r {
	case UsedUp, FloorTooFar, LeaseOver, TooManyCommits, IDUsed, StampUsed, CommitPending, FloorAboveCap:
		return true
	}
	return false
}

// isUnknown says whether this refusal of the line of a pending commit says that the service knows of no such one.
func isUnknown(err error) bool {
	return err == CommitPassed || err == CommitPending || err == CommitGone
}

var (
	// ErrNoCommit is the error of Wait where no commit was begun that could be waited for, or its connection failed.
	ErrNoCommit = errors.New("truetime: no commit was begun")
	// ErrBadLine is the error of Ask where the line has more than 64 bytes or is not printable ASCII. Nothing was sent.
	ErrBadLine = errors.New("truetime: the line is too long, or has a byte that is not printable")
	// ErrNegative is the error of a call that was given a negative time. Nothing was sent.
	ErrNegative = errors.New("truetime: a time is negative")
	// ErrLimits is the error of SetLimits.
	ErrLimits = errors.New("truetime: a floor may be ahead by MaxAhead at most, and the grid is from a nanosecond to MaxGrid")
	// ErrPoolClosed is the error of a Pool that was closed.
	ErrPoolClosed = errors.New("truetime: the pool is closed")
	// ErrReply is within a BrokenError where what came is no reply.
	ErrReply = errors.New("not a reply")
	// ErrUnsupported is the error of Open where the file cannot be read on this system.
	ErrUnsupported = errors.New("truetime: the shared file needs Linux on a little-endian machine of 64 bits; ask by a session")
)

// What a file is not, within the FileError of an OtherFile.
var (
	ErrFileKind     = errors.New("it is no file of 320 bytes")
	ErrFileOwner    = errors.New("it has another owner")
	ErrFileWritable = errors.New("others may write to it")
	ErrFileFormat   = errors.New("it is of another format, or of another version")
	ErrFileClock    = errors.New("it is of another boot, or of another clock")
)

// A FileError is a NoFile, with what the system said (fs.ErrNotExist, fs.ErrPermission, fs.ErrClosed and so on), or an
// OtherFile, with which check of the file failed. errors.Is finds either, and errors.As the Refusal.
type FileError struct {
	Refusal Refusal
	Err     error
}

func (f *FileError) Error() string { return f.Refusal.Error() + ": " + f.Err.Error() }

// Unwrap gives the reason.
func (f *FileError) Unwrap() error { return f.Err }

// Is says whether this is the refusal.
func (f *FileError) Is(target error) bool { return target == f.Refusal }

// As gives the refusal.
func (f *FileError) As(target any) bool {
	refusal, ok := target.(*Refusal)
	if ok {
		*refusal = f.Refusal
	}
	return ok
}

// A PendingError is the CommitPending of Begin and Commit: a commit that Begin began is not known as released. Call Wait.
type PendingError struct {
	Commit int64 // its number in the session
	Stamp  int64 // its timestamp
}

func (p *PendingError) Error() string {
	return fmt.Sprintf("%v: call Wait for commit %d, whose timestamp is %d", CommitPending, p.Commit, p.Stamp)
}

// Unwrap gives CommitPending.
func (p *PendingError) Unwrap() error { return CommitPending }

// A BrokenError says that the connection failed, or could not be made, and why: os.ErrDeadlineExceeded where no reply came in time,
// io.ErrUnexpectedEOF where the service ended the session, ErrReply where what came is no reply, net.ErrClosed where the
// session was closed by Close, or another error of the connection. If it failed within Begin or Commit, the commit may have
// begun: begin another one. The next call connects anew.
//
// A commit of Begin that was pending is never known as released: begin it again, or give it up. A new connection has no lease
// until it is set again.
type BrokenError struct {
	Err       error
	Commit    int64 // the number of the commit of Begin that was pending; 0 where none was
	Stamp     int64 // its timestamp
	LostLease bool  // whether the session had a lease
}

func (b *BrokenError) Error() string {
	text := "truetime: the connection failed: " + b.Err.Error()
	if b.Commit != 0 {
		text += fmt.Sprintf("; commit %d, whose timestamp is %d, was pending: begin it again, or give it up", b.Commit, b.Stamp)
	}
	if b.LostLease {
		text += "; the lease has to be set again"
	}
	return text
}

// Unwrap gives the reason.
func (b *BrokenError) Unwrap() error { return b.Err }
