package cache

import (
	"fmt"
	"testing"
	"time"
)

var someTime = time.Unix(1700000000, 0)

func TestEntries(t *testing.T) {
	key := Key{1, 2, 3}
	for _, text := range answersKept {
		read, err := readAnswer([]byte(text))
		if err != nil {
			t.Fatal(err)
		}
		entry := writeEntry(key, read, someTime.Add(time.Minute))
		kept, err := readEntry(key, entry, someTime)
		if err != nil || string(join([]matrix{kept}).write()) != text {
			t.Errorf("%s: %v", text, err)
		}
		for _, now := range []time.Duration{time.Minute, time.Hour} {
			if _, err := readEntry(key, entry, someTime.Add(now)); err == nil {
				t.Errorf("%s: kept for %v", text, now)
			}
		}
		if _, err := readEntry(Key{1, 2}, entry, someTime); err == nil {
			t.Errorf("%s: an entry of another key", text)
		}
		checkBroken(t, key, entry)
	}
}

// checkBroken says which broken entry is read: one that is cut off, longer, or has another byte.
func checkBroken(t *testing.T, key Key, entry []byte) {
	t.Helper()
	for i := range entry {
		broken := append([]byte{}, entry...)
		broken[i] ^= 1 << (i % 8)
		for _, it := range [][]byte{entry[:i], broken, append(broken[:i:i], entry[i+1:]...)} {
			if _, err := readEntry(key, it, someTime); err == nil {
				t.Errorf("an entry that is broken at %d", i)
			}
		}
	}
	if _, err := readEntry(key, append(entry[:len(entry):len(entry)], 0), someTime); err == nil {
		t.Error("an entry that is longer")
	}
}

// What is within an entry whose checksum is right is bounded by it.
func FuzzEntries(f *testing.F) {
	for _, text := range []string{"", "\x00\x00\x00", "\x02a\x01\x00", "\xff\xff\xff\xff\xff\xff\xff\xff\xff\x01", "\x05ab"} {
		f.Add([]byte(text))
	}
	f.Fuzz(func(t *testing.T, text []byte) {
		key := Key{1}
		entry := append(writeEntry(key, nil, someTime.Add(time.Minute)), text...)
		sum := checksum(entry)
		for i := 0; i < checksumSize; i++ {
			entry[headSize-1-i] = byte(sum >> (8 * i))
		}
		kept, err := readEntry(key, entry, someTime)
		if err != nil {
			return
		}
		if again, err := readEntry(key, writeEntry(key, kept, someTime.Add(time.Minute)), someTime); err != nil || fmt.Sprint(again) != fmt.Sprint(kept) {
			t.Errorf("%q: %v", text, err)
		}
	})
}
