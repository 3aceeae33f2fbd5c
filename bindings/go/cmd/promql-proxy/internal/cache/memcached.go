package cache

import (
	"bufio"
	"encoding/hex"
	"errors"
	"fmt"
	"io"
	"net"
	"net/url"
	"strconv"
	"strings"
	"sync"
	"time"
)

const (
	// memcachedTimeout bounds each call. A store that takes longer is worth nothing.
	memcachedTimeout = 500 * time.Millisecond
	// memcachedPause is how long a store that failed is left alone.
	memcachedPause = time.Second
	memcachedIdle  = 16
	memcachedPort  = "11211"
	// Memcached takes a longer time for a date.
	memcachedLongest = 30 * 24 * time.Hour
	// maxReply bounds a line of the protocol.
	maxReply = 1 << 10
)

// errNotStored says that an entry was not kept, as one that is too large for the memcached. The connection is as good as before.
var errNotStored = errors.New("not stored")

// Memcached is a store that several proxies share: a memcached, by its text protocol. Where it fails, nothing is kept.
type Memcached struct {
	address string
	most    int64
	failed  func()
	idle    chan *memcachedConnection
	mutex   sync.Mutex
	until   time.Time
}

type memcachedConnection struct {
	net.Conn
	reader *bufio.Reader
}

// NewMemcached returns the store at an address such as memcached://localhost:11211. An entry has so many bytes at most. Each failure is told.
func NewMemcached(address string, most int64, failed func()) (*Memcached, error) {
	parsed, err := url.Parse(address)
	if err != nil {
		return nil, err
	}
	if parsed.Scheme != "memcached" || parsed.Hostname() == "" || parsed.User != nil || parsed.Path+parsed.RawQuery+parsed.Fragment != "" {
		return nil, fmt.Errorf("%q is no address such as memcached://localhost:%s", address, memcachedPort)
	}
	port := parsed.Port()
	if port == "" {
		port = memcachedPort
	}
	made := &Memcached{address: net.JoinHostPort(parsed.Hostname(), port), most: most, failed: failed}
	made.idle = make(chan *memcachedConnection, memcachedIdle)
	return made, nil
}

// Get returns an entry, or nil.
func (m *Memcached) Get(key Key) []byte {
	var entry []byte
	m.call(func(connection *memcachedConnection) error {
		if _, err := fmt.Fprintf(connection, "get %s\r\n", nameOf(key)); err != nil {
			return err
		}
		var err error
		entry, err = connection.value(nameOf(key), m.most)
		return err
	})
	return entry
}

// Set keeps an entry.
func (m *Memcached) Set(key Key, entry []byte, atMost time.Duration) {
	if int64(len(entry)) > m.most {
		return
	}
	if atMost > memcachedLongest {
		atMost = memcachedLongest
	}
	m.call(func(connection *memcachedConnection) error {
		head := fmt.Sprintf("set %s 0 %d %d\r\n", nameOf(key), int64(atMost/time.Second), len(entry))
		for _, text := range [][]byte{[]byte(head), entry, []byte("\r\n")} {
			if _, err := connection.Write(text); err != nil {
				return err
			}
		}
		reply, err := connection.line()
		if err == nil && reply != "STORED" {
			err = errNotStored
		}
		return err
	})
}

// nameOf is the name that a key has in the store.
func nameOf(key Key) string {
	return "promql-proxy:" + hex.EncodeToString(key[:])
}

// value reads the answer to get.
func (c *memcachedConnection) value(name string, most int64) ([]byte, error) {
	head, err := c.line()
	if err != nil || head == "END" {
		return nil, err
	}
	words := strings.Fields(head)
	if len(words) != 4 || words[0] != "VALUE" || words[1] != name {
		return nil, errors.New("no value of this name")
	}
	length, err := strconv.ParseUint(words[3], 10, 62)
	if err != nil || int64(length) > most {
		return nil, errors.New("no length of an entry")
	}
	const end = "\r\nEND\r\n"
	text := make([]byte, int(length)+len(end))
	if _, err := io.ReadFull(c.reader, text); err != nil {
		return nil, err
	}
	if string(text[length:]) != end {
		return nil, errors.New("more than a value")
	}
	return text[:length:length], nil
}

// line reads a line without its end.
func (c *memcachedConnection) line() (string, error) {
	line, err := c.reader.ReadSlice('\n')
	return strings.TrimSuffix(string(line), "\r\n"), err
}

// call makes a call by a connection of its own, which is used again where it did not fail. Right after a failure there is no call.
func (m *Memcached) call(made func(*memcachedConnection) error) {
	if m.rests() {
		return
	}
	connection, err := m.connection()
	if err == nil {
		if err = connection.SetDeadline(time.Now().Add(memcachedTimeout)); err == nil {
			err = made(connection)
		}
		m.putBack(connection, err)
	}
	if err == nil {
		return
	}
	m.failed()
	if !errors.Is(err, errNotStored) {
		m.rest()
	}
}

// putBack keeps a connection for the next call, if it is good.
func (m *Memcached) putBack(connection *memcachedConnection, err error) {
	if err != nil && !errors.Is(err, errNotStored) {
		connection.Close()
		return
	}
	select {
	case m.idle <- connection:
	default:
		connection.Close()
	}
}

func (m *Memcached) connection() (*memcachedConnection, error) {
	select {
	case idle := <-m.idle:
		return idle, nil
	default:
	}
	made, err := net.DialTimeout("tcp", m.address, memcachedTimeout)
	if err != nil {
		return nil, err
	}
	return &memcachedConnection{made, bufio.NewReaderSize(made, maxReply)}, nil
}

func (m *Memcached) rests() bool {
	m.mutex.Lock()
	defer m.mutex.Unlock()
	return time.Now().Before(m.until)
}

// rest leaves the store alone for a while. Connections that wait are no better than the one that failed.
func (m *Memcached) rest() {
	m.mutex.Lock()
	m.until = time.Now().Add(memcachedPause)
	m.mutex.Unlock()
	for {
		select {
		case idle := <-m.idle:
			idle.Close()
		default:
			return
		}
	}
}
