package cache

import (
	"bytes"
	"testing"
	"time"
)

// sizes keeps what a store tells.
type sizes struct {
	entries, dropped int
	bytes            int64
}

func (s *sizes) CacheSize(entries int, bytes int64, dropped int) {
	s.entries, s.bytes = entries, bytes
	s.dropped += dropped
}

func TestMemory(t *testing.T) {
	told := &sizes{}
	entry := make([]byte, 100)
	store := NewMemory(3*(100+overhead), told)
	for i := byte(0); i < 3; i++ {
		store.Set(Key{i}, entry, time.Hour)
	}
	if store.Get(Key{0}) == nil || store.Get(Key{9}) != nil || *told != (sizes{3, 0, 3 * (100 + overhead)}) {
		t.Errorf("%+v", told)
	}
	// The entry that was used least recently goes.
	store.Set(Key{3}, entry, time.Hour)
	if store.Get(Key{1}) != nil || store.Get(Key{0}) == nil || store.Get(Key{2}) == nil || store.Get(Key{3}) == nil || told.dropped != 1 {
		t.Errorf("%+v", told)
	}
	// Another entry for a key takes the place of the first.
	store.Set(Key{3}, []byte("x"), time.Hour)
	if !bytes.Equal(store.Get(Key{3}), []byte("x")) || told.bytes != 2*(100+overhead)+1+overhead {
		t.Errorf("%+v", told)
	}
	// An entry that is too large leaves the others where they are, and one that is just not takes all their room.
	store.Set(Key{4}, make([]byte, 3*(100+overhead)), time.Hour)
	if store.Get(Key{4}) != nil || told.entries != 3 {
		t.Errorf("%+v", told)
	}
	store.Set(Key{5}, make([]byte, 3*(100+overhead)-overhead), time.Hour)
	if store.Get(Key{5}) == nil || *told != (sizes{1, 4, 3 * (100 + overhead)}) {
		t.Errorf("%+v", told)
	}
}

// Endless keys stay within the bound.
func TestMemoryOfManyKeys(t *testing.T) {
	told := &sizes{}
	store := NewMemory(100_000, told)
	for i := 0; i < 100_000; i++ {
		store.Set(Key{byte(i), byte(i >> 8), byte(i >> 16)}, make([]byte, i%500), time.Hour)
		if told.bytes > 100_000 || len(store.entries) != told.entries || store.recent.Len() != told.entries {
			t.Fatalf("%+v", told)
		}
	}
	if told.entries < 100 || told.entries+told.dropped != 100_000 {
		t.Errorf("%+v", told)
	}
}
