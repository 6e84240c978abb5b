// Package egw is collaborative plain text: documents that several people change apart, and that show the same text once they hold the
// same events. Indices count characters, that is runes. What each call does, egw.h says in full.
//
// A document is used by one goroutine at a time.
package egw

// #cgo pkg-config: egw
// #include <egw.h>
import "C"

import (
	"fmt"
	"unsafe"
)

// Error is why a call didn't do what it says. Status and Number are those of egw.h. Nothing is changed by the call, unless it was
// Receive.
type Error struct {
	Status uint32
	Number uint64
}

func (e *Error) Error() string { return fmt.Sprintf("egw: status %d, number %d", e.Status, e.Number) }

// Change is one change of a text.
type Change struct {
	Kind Kind
	At   int
	Ch   rune
}

// Kind is what a change does: it inserts Ch before what stands at At, or deletes the character there.
type Kind uint32

const (
	Nothing   Kind = C.EGW_NOTHING
	Insertion Kind = C.EGW_INSERTION
	Deletion  Kind = C.EGW_DELETION
)

// Peer is what came from one connection and is no whole frame yet.
type Peer struct{ at C.egw_peer }

// Document is a text with its whole history.
type Document struct{ at C.egw_document }

func checked(a C.egw_answer) (int, error) {
	if a.status != C.EGW_OK {
		return 0, &Error{uint32(a.status), uint64(a.number)}
	}
	return int(a.number), nil
}

// made is what an answer says is made, or nil.
func made[T any](it *T, a C.egw_answer) (*T, error) {
	if _, err := checked(a); err != nil {
		return nil, err
	}
	return it, nil
}

// bytes is where the bytes of a string or a slice lie, and how many they are.
func bytes[T string | []byte](words T) (unsafe.Pointer, C.size_t) {
	b := []byte(words)
	if len(b) == 0 {
		return nil, 0
	}
	return unsafe.Pointer(&b[0]), C.size_t(len(b))
}

// NewPeer makes a peer. Close it at the end.
func NewPeer() (*Peer, error) {
	p := new(Peer)
	return made(p, C.egw_peer_new(&p.at))
}

// Close gives the memory of a peer back.
func (p *Peer) Close() { C.egw_peer_free(&p.at) }

// New makes a document without events. Close it at the end.
func New() (*Document, error) {
	d := new(Document)
	return made(d, C.egw_new(&d.at))
}

// Open makes the document of an event file's bytes. Close it at the end.
func Open(file []byte) (*Document, error) {
	d := new(Document)
	at, n := bytes(file)
	return made(d, C.egw_open(&d.at, at, n))
}

// Close gives the memory of a document back.
func (d *Document) Close() { C.egw_free(&d.at) }

// Len is how many characters the text has.
func (d *Document) Len() int { return int(C.egw_length(&d.at)) }

// Count is how many events are held.
func (d *Document) Count() int { return int(C.egw_count(&d.at)) }

// Insert inserts a text at an index, as an agent: the name of this copy. It answers how many events were made.
func (d *Document) Insert(agent string, at int, text string) (int, error) {
	a, an := bytes(agent)
	t, tn := bytes(text)
	return checked(C.egw_insert(&d.at, a, an, number(at), t, tn))
}

// Delete deletes so many characters from an index on, as an agent.
func (d *Document) Delete(agent string, at, count int) (int, error) {
	a, an := bytes(agent)
	return checked(C.egw_delete(&d.at, a, an, number(at), number(count)))
}

// Mark makes a save under a label, as an agent, which joins all heads.
func (d *Document) Mark(agent, label string) (int, error) {
	a, an := bytes(agent)
	l, ln := bytes(label)
	return checked(C.egw_mark(&d.at, a, an, l, ln))
}

// Undo undoes so many events of one agent, from the one with the id of on, as "ada:4", by new events of an agent.
func (d *Document) Undo(agent, of string, count int) (int, error) {
	a, an := bytes(agent)
	o, on := bytes(of)
	return checked(C.egw_undo(&d.at, a, an, o, on, number(count)))
}

// Text is the text.
func (d *Document) Text() (string, error) { return d.words(C.egw_text(&d.at)) }

// Range is so many characters of the text from an index on. All of them have to be there.
func (d *Document) Range(from, count int) (string, error) {
	return d.words(C.egw_range(&d.at, number(from), number(count)))
}

// TextAt is the text of a version: what Heads answered once.
func (d *Document) TextAt(version string) (string, error) {
	v, n := bytes(version)
	return d.words(C.egw_text_at(&d.at, v, n))
}

// ToUTF16 is how many code units of UTF-16 stand before an index.
func (d *Document) ToUTF16(at int) (int, error) { return checked(C.egw_to_utf16(&d.at, number(at))) }

// FromUTF16 is the index before which just so many code units of UTF-16 stand.
func (d *Document) FromUTF16(units int) (int, error) {
	return checked(C.egw_from_utf16(&d.at, C.uint64_t(units)))
}

// ToBytes is how many bytes of UTF-8 stand before an index.
func (d *Document) ToBytes(at int) (int, error) { return checked(C.egw_to_bytes(&d.at, number(at))) }

// FromBytes is the index before which just so many bytes of UTF-8 stand.
func (d *Document) FromBytes(count int) (int, error) {
	return checked(C.egw_from_bytes(&d.at, C.uint64_t(count)))
}

// Heads is the version that the document is at now.
func (d *Document) Heads() (string, error) { return d.words(C.egw_heads(&d.at)) }

// Save is the bytes of an event file.
func (d *Document) Save() ([]byte, error) { return d.found(C.egw_save(&d.at)) }

// Ask is the bytes of a question for what this document lacks. Send them to a peer.
func (d *Document) Ask() ([]byte, error) { return d.found(C.egw_ask(&d.at)) }

// Events is the events from number since on, as the bytes that a peer is sent who lacks them.
func (d *Document) Events(since int) ([]byte, error) {
	return d.found(C.egw_events(&d.at, number(since)))
}

// Marks is the marks, oldest first: of each a line with its id, a space and its label.
func (d *Document) Marks() (string, error) { return d.words(C.egw_marks(&d.at)) }

// Caret is the caret at an index of the text, for CaretIndex.
func (d *Document) Caret(at int) (string, error) { return d.words(C.egw_caret(&d.at, number(at))) }

// CaretIndex is the index at which a caret is now, whatever came since.
func (d *Document) CaretIndex(caret string) (int, error) {
	c, n := bytes(caret)
	return checked(C.egw_caret_index(&d.at, c, n))
}

// Blame is who inserted which part of the text of a version, or of the text as it is where there are no words: lines with an id, a
// number of characters, and as many of these as fit into so many columns.
func (d *Document) Blame(version string, columns int) (string, error) {
	v, n := bytes(version)
	return d.words(C.egw_blame(&d.at, v, n, number(columns)))
}

// Receive takes bytes that a peer sent, cut anywhere. It answers the bytes that are to be sent back, also where there is an error: then
// the session is over, and what was received by then is held.
func (d *Document) Receive(p *Peer, sent []byte) ([]byte, error) {
	b, n := bytes(sent)
	_, err := checked(C.egw_receive(&d.at, &p.at, b, n))
	return d.copied(), err
}

// Changes is what the events from number since on do to the text: done in turn to the text as it was then, they leave the text.
func (d *Document) Changes(since int) ([]Change, error) {
	count, err := checked(C.egw_changes(&d.at, number(since)))
	if err != nil || count == 0 {
		return nil, err
	}
	raw := make([]C.egw_change, count)
	C.egw_copy_changes(&d.at, &raw[0], C.size_t(count))
	changes := make([]Change, count)
	for i, c := range raw {
		changes[i] = Change{Kind(c.kind), int(c.at), rune(c.ch)}
	}
	return changes, nil
}

// number is an index or a count as C has them. One that is out of range there becomes the greatest, which no text and no history reaches.
func number(n int) C.uint32_t {
	if uint64(n) > 0xffffffff {
		return 0xffffffff
	}
	return C.uint32_t(n)
}

func (d *Document) found(a C.egw_answer) ([]byte, error) {
	if _, err := checked(a); err != nil {
		return nil, err
	}
	return d.copied(), nil
}

func (d *Document) words(a C.egw_answer) (string, error) {
	b, err := d.found(a)
	return string(b), err
}

func (d *Document) copied() []byte {
	b := make([]byte, C.egw_copy(&d.at, nil, 0))
	if len(b) > 0 {
		C.egw_copy(&d.at, unsafe.Pointer(&b[0]), C.size_t(len(b)))
	}
	return b
}
