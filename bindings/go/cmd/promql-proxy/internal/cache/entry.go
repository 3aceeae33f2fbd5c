package cache

import (
	"bytes"
	"encoding/binary"
	"errors"
	"hash/crc32"
	"time"
)

// Key names what is kept: a digest of all that an answer depends on.
type Key [32]byte

// What an entry begins with: the version of its form. Another version has other entries, which this one does not read.
const entryVersion = 1

const (
	checksumSize = 4
	// A version, a time in seconds, a key, and a checksum of all other bytes.
	headSize = 1 + 8 + len(Key{}) + checksumSize
)

// errEntry says that an entry is not one that was written here for its key, or that its time is over.
var errEntry = errors.New("no entry for this key")

var castagnoli = crc32.MakeTable(crc32.Castagnoli)

// writeEntry returns what a store keeps of an answer: all that is needed to see that it is that.
func writeEntry(key Key, kept matrix, until time.Time) []byte {
	text := make([]byte, headSize, headSize+int(kept.size())+len(kept)*3*binary.MaxVarintLen32)
	text[0] = entryVersion
	binary.BigEndian.PutUint64(text[1:], uint64(until.Unix()))
	copy(text[9:], key[:])
	for _, it := range kept {
		for _, piece := range [][]byte{it.metric, it.values, it.histograms} {
			text = appendPiece(text, piece)
		}
	}
	binary.BigEndian.PutUint32(text[headSize-checksumSize:], checksum(text))
	return text
}

// appendPiece writes a length and bytes. A piece that is not there has length 0, and any other one more than it has.
func appendPiece(text, piece []byte) []byte {
	if piece == nil {
		return append(text, 0)
	}
	return append(binary.AppendUvarint(text, uint64(len(piece))+1), piece...)
}

// checksum is that of all bytes of an entry but its own.
func checksum(text []byte) uint32 {
	sum := crc32.Update(0, castagnoli, text[:headSize-checksumSize])
	return crc32.Update(sum, castagnoli, text[headSize:])
}

// readEntry returns the answer that an entry has, whose bytes are those of the entry.
func readEntry(key Key, text []byte, now time.Time) (matrix, error) {
	if len(text) < headSize || text[0] != entryVersion || !bytes.Equal(text[9:9+len(key)], key[:]) ||
		binary.BigEndian.Uint32(text[headSize-checksumSize:]) != checksum(text) || now.Unix() >= int64(binary.BigEndian.Uint64(text[1:])) {
		return nil, errEntry
	}
	var kept matrix
	for rest := text[headSize:]; len(rest) > 0; {
		var pieces [3][]byte
		for i := range pieces {
			var err error
			if pieces[i], rest, err = cutPiece(rest); err != nil {
				return nil, err
			}
		}
		kept = append(kept, series{pieces[0], pieces[1], pieces[2]})
	}
	return kept, nil
}

func cutPiece(text []byte) (piece, rest []byte, err error) {
	length, read := binary.Uvarint(text)
	if read <= 0 || length > uint64(len(text)-read)+1 {
		return nil, nil, errEntry
	}
	if length == 0 {
		return nil, text[read:], nil
	}
	end := read + int(length) - 1
	return text[read:end:end], text[end:], nil
}
