package cache

import (
	"container/list"
	"sync"
	"time"
)

// Store keeps entries. It may lose each of them at any time, and what it gives back is looked at before it is used. Get and Set are called
// by many at once. No one writes into the bytes that it is given or gives back.
type Store interface {
	// Get returns an entry, or nil.
	Get(key Key) []byte
	// Set keeps an entry for at most this long.
	Set(key Key, entry []byte, atMost time.Duration)
}

// overhead is about what the map, the list and the slices of the store have for an entry beside its bytes.
const overhead = 256

// Memory is a store within the process. Of its entries those go first that were used least recently.
type Memory struct {
	mutex   sync.Mutex
	most    int64
	bytes   int64
	entries map[Key]*list.Element
	// recent has the entries, the one that was used last first.
	recent *list.List
	told   Sizes
}

// Sizes is told what a store in memory has.
type Sizes interface {
	// CacheSize tells how many entries there are, how many bytes they have, and how many were dropped for want of room.
	CacheSize(entries int, bytes int64, dropped int)
}

type kept struct {
	key   Key
	entry []byte
}

// NewMemory returns a store that has so many bytes at most, with its keys.
func NewMemory(most int64, told Sizes) *Memory {
	return &Memory{most: most, entries: map[Key]*list.Element{}, recent: list.New(), told: told}
}

// Get returns an entry, or nil.
func (m *Memory) Get(key Key) []byte {
	m.mutex.Lock()
	defer m.mutex.Unlock()
	found, has := m.entries[key]
	if !has {
		return nil
	}
	m.recent.MoveToFront(found)
	return found.Value.(kept).entry
}

// Set keeps an entry, unless it alone is too large. How long, the entry itself says.
func (m *Memory) Set(key Key, entry []byte, _ time.Duration) {
	if sizeOf(entry) > m.most {
		return
	}
	m.mutex.Lock()
	defer m.mutex.Unlock()
	if found, has := m.entries[key]; has {
		m.drop(found)
	}
	m.entries[key] = m.recent.PushFront(kept{key, entry})
	m.bytes += sizeOf(entry)
	dropped := 0
	for ; m.bytes > m.most; dropped++ {
		m.drop(m.recent.Back())
	}
	m.told.CacheSize(len(m.entries), m.bytes, dropped)
}

func (m *Memory) drop(element *list.Element) {
	gone := m.recent.Remove(element).(kept)
	delete(m.entries, gone.key)
	m.bytes -= sizeOf(gone.entry)
}

// sizeOf is what an entry counts, with its key.
func sizeOf(entry []byte) int64 {
	return int64(cap(entry)) + overhead
}
