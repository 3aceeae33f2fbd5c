package cache

import (
	"bufio"
	"bytes"
	"fmt"
	"io"
	"net"
	"strings"
	"sync/atomic"
	"testing"
	"time"
)

// storeOf starts a server that gives these replies, one to each line that it reads, and returns a store that asks it, which counts failures.
func storeOf(t *testing.T, replies ...string) (*Memcached, *int32, *bytes.Buffer) {
	t.Helper()
	listener, err := net.Listen("tcp", "127.0.0.1:0")
	if err != nil {
		t.Fatal(err)
	}
	t.Cleanup(func() { listener.Close() })
	said := &bytes.Buffer{}
	go func() {
		for {
			connection, err := listener.Accept()
			if err != nil {
				return
			}
			reader := bufio.NewReader(connection)
			for line := ""; err == nil && len(replies) > 0; {
				if line, err = reader.ReadString('\n'); err == nil {
					said.WriteString(line)
					_, _ = io.WriteString(connection, replies[0])
					replies = replies[1:]
				}
			}
			connection.Close()
		}
	}()
	var failures int32
	store, err := NewMemcached("memcached://"+listener.Addr().String(), 1000, func() { atomic.AddInt32(&failures, 1) })
	if err != nil {
		t.Fatal(err)
	}
	return store, &failures, said
}

func TestMemcached(t *testing.T) {
	name := nameOf(Key{1})
	store, failures, said := storeOf(t, "END\r\n", "", "STORED\r\n", fmt.Sprintf("VALUE %s 0 5\r\na\r\nbc\r\nEND\r\n", name), "", "NOT_STORED\r\n", "END\r\n")
	if entry := store.Get(Key{1}); entry != nil {
		t.Errorf("%q", entry)
	}
	store.Set(Key{1}, []byte("abc"), time.Hour)
	if entry := store.Get(Key{1}); string(entry) != "a\r\nbc" {
		t.Errorf("%q", entry)
	}
	if *failures != 0 {
		t.Errorf("%d failures", *failures)
	}
	// What is not stored does not end the connection.
	store.Set(Key{1}, []byte("abc"), 1000*time.Hour)
	if entry := store.Get(Key{1}); entry != nil || *failures != 1 {
		t.Errorf("%q %d", entry, *failures)
	}
	store.Set(Key{1}, make([]byte, 1001), time.Hour)
	wanted := "get K\r\nset K 0 3600 3\r\nabc\r\nget K\r\nset K 0 2592000 3\r\nabc\r\nget K\r\n"
	if found := strings.ReplaceAll(said.String(), name, "K"); found != wanted {
		t.Errorf("%q", found)
	}
}

// A store that fails or says something else has nothing, and is left alone for a while.
func TestMemcachedThatFails(t *testing.T) {
	name := nameOf(Key{1})
	for _, reply := range []string{
		"ERROR\r\n", "\n", "VALUE\r\n", "VALUE x 0 1\r\na\r\nEND\r\n", "VALUE " + name + " 0 -1\r\n", "VALUE " + name + " 0 1001\r\n",
		"VALUE " + name + " 0 99999999999999999999\r\n", "VALUE " + name + " 0 3\r\na\r\nEND\r\n", "VALUE " + name + " 0 1\r\nabcdefgh",
		"VALUE " + name + " 0 1\r\na\r\nVALUE x 0 1\r\na\r\nEND\r\n", strings.Repeat("x", 2*maxReply), "VALUE " + name + " 0 4000 x\r\n",
	} {
		store, failures, _ := storeOf(t, reply)
		begun := time.Now()
		if entry := store.Get(Key{1}); entry != nil || *failures != 1 {
			t.Errorf("%.100q: %q %d", reply, entry, *failures)
		}
		for i := 0; i < 100; i++ {
			store.Get(Key{1})
			store.Set(Key{1}, nil, time.Hour)
		}
		if took := time.Since(begun); *failures != 1 && took < memcachedPause || took > 10*memcachedTimeout {
			t.Errorf("%.100q: %d failures in %v", reply, *failures, took)
		}
	}
	listener, err := net.Listen("tcp", "127.0.0.1:0")
	if err != nil {
		t.Fatal(err)
	}
	listener.Close()
	var failures int32
	store, err := NewMemcached("memcached://"+listener.Addr().String(), 1000, func() { atomic.AddInt32(&failures, 1) })
	if err != nil || store.Get(Key{1}) != nil || failures != 1 {
		t.Errorf("nobody listens: %v %d", err, failures)
	}
}

func TestAddressesOfMemcached(t *testing.T) {
	for address, wanted := range map[string]string{
		"memcached://localhost": "localhost:11211", "memcached://127.0.0.1:5": "127.0.0.1:5", "memcached://[::1]": "[::1]:11211",
		"": "", "localhost:11211": "", "redis://localhost": "", "memcached://": "", "memcached://a:b@c": "", "memcached://a/b": "", "memcached://a?b": "",
	} {
		store, err := NewMemcached(address, 1, nil)
		if (err == nil) != (wanted != "") || err == nil && store.address != wanted {
			t.Errorf("%s: %v", address, err)
		}
	}
}
