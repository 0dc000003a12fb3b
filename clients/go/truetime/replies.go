package truetime

import (
	"bytes"
	"fmt"
	"strconv"
	"strings"
)

// lineOf gives a line that is this word and numbers.
func lineOf(word string, numbers ...int64) string {
	line := []byte(word)
	for _, number := range numbers {
		line = strconv.AppendInt(append(line, ' '), number, 10)
	}
	return string(line)
}

// replyIn gives the reply that was received, once it is whole or it shows that it is none.
func replyIn(received []byte) (got reply, isWhole bool) {
	end := bytes.IndexByte(received, '\n')
	switch {
	case end < 0 && len(received) > lineBytes:
		return reply{err: fmt.Errorf("%w: it is too long", ErrReply)}, true
	case end < 0:
		return reply{}, false
	case end < len(received)-1 || !isPrintable(string(received[:end])):
		return reply{err: fmt.Errorf("%w: %q", ErrReply, received)}, true
	}
	return reply{text: string(received[:end])}, true
}

// refusalIn gives the refusal that a reply is.
func refusalIn(reply string) (Refusal, bool) {
	numbers, ok := numbersBehind(reply, "refused", 1)
	return Refusal(numbers[0]), ok && 1 <= numbers[0] && numbers[0] <= 65_535
}

func isRefusal(err error) bool {
	_, ok := err.(Refusal)
	return ok
}

// isInterval says whether this is a reply to now.
func isInterval(reply string) bool {
	numbers, ok := numbersBehind(reply, "now", 2)
	return ok && numbers[0] <= numbers[1]
}

// isYesOrNo says whether this is a reply to after and before.
func isYesOrNo(reply string) bool { return reply == "yes" || reply == "no" }

// stampIn gives the timestamp in a reply to the line of this commit, and whether the commit is released.
func stampIn(reply string, number int64) (stamp int64, isCommitted, ok bool) {
	numbers, isCommitted := numbersBehind(reply, "committed", 2)
	if !isCommitted {
		numbers, ok = numbersBehind(reply, "waiting", 2)
	}
	return numbers[1], isCommitted, (isCommitted || ok) && numbers[0] == number
}

// numbersBehind gives the numbers of a reply that is this word and so many numbers, each in its one spelling and at most
// the greatest time.
func numbersBehind(reply, word string, count int) (numbers [2]int64, ok bool) {
	words := strings.Split(reply, " ")
	if words[0] != word || len(words) != count+1 {
		return numbers, false
	}
	for place, text := range words[1:] {
		number, err := strconv.ParseInt(text, 10, 64)
		if err != nil || number < 0 || number > MaxTime || strconv.FormatInt(number, 10) != text {
			return numbers, false
		}
		numbers[place] = number
	}
	return numbers, true
}

func isPrintable(text string) bool {
	for _, letter := range []byte(text) {
		if letter < ' ' || letter > '~' {
			return false
		}
	}
	return true
}

func noReply(line, reply string) error { return fmt.Errorf("%w to %q: %q", ErrReply, line, reply) }
