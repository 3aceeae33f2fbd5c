// Package logs writes structured lines: one for each event, as name=value pairs. Each value is escaped, so that no text from outside can
// end a line, begin a pair or move a cursor.
package logs

import (
	"fmt"
	"io"
	"log"
	"strconv"
	"strings"
	"sync"
	"time"
)

// Level says how much an event matters.
type Level int

// The levels, from the least.
const (
	Info Level = iota
	Warn
	Error
)

var names = []string{"info", "warn", "error"}

// ParseLevel returns the level with a name.
func ParseLevel(name string) (Level, error) {
	for level, known := range names {
		if known == name {
			return Level(level), nil
		}
	}
	return 0, fmt.Errorf("%q is none of the levels %s", name, strings.Join(names, ", "))
}

// Longest is the most bytes that a value has in the log.
const Longest = 4096

// Logger writes the events of a level and above.
type Logger struct {
	mutex sync.Mutex
	out   io.Writer
	least Level
	now   func() time.Time
}

// New returns a logger.
func New(out io.Writer, least Level) *Logger {
	return &Logger{out: out, least: least, now: time.Now}
}

// Log writes an event: its message, and the pairs of a name and a value.
func (l *Logger) Log(level Level, message string, pairs ...any) {
	if level < l.least {
		return
	}
	var line strings.Builder
	fmt.Fprintf(&line, "time=%s level=%s msg=%s", l.now().UTC().Format("2006-01-02T15:04:05.000Z"), names[level], escaped(message))
	for i := 0; i+1 < len(pairs); i += 2 {
		fmt.Fprintf(&line, " %v=%s", pairs[i], escaped(fmt.Sprint(pairs[i+1])))
	}
	line.WriteByte('\n')
	l.mutex.Lock()
	defer l.mutex.Unlock()
	// A log that cannot be written ends no request.
	_, _ = io.WriteString(l.out, line.String())
}

// escaped returns the value as it is where it is a plain word, and else quoted, in ASCII.
func escaped(value string) string {
	if len(value) > Longest {
		value = value[:Longest] + ".."
	}
	plain := value != ""
	for i := 0; i < len(value) && plain; i++ {
		plain = value[i] > ' ' && value[i] < 0x7f && !strings.ContainsRune(`"=\`, rune(value[i]))
	}
	if plain {
		return value
	}
	return strconv.QuoteToASCII(value)
}

// Standard returns a logger of the standard library, for what net/http has to say.
func (l *Logger) Standard() *log.Logger {
	return log.New(writer{l}, "", 0)
}

type writer struct {
	logger *Logger
}

func (w writer) Write(text []byte) (int, error) {
	w.logger.Log(Warn, "net/http", "said", strings.TrimSpace(string(text)))
	return len(text), nil
}
