package egw

import (
	"errors"
	"testing"
)

// editor is a document, what it hears from the other, and the text as its user sees it.
type editor struct {
	*testing.T
	name  string
	doc   *Document
	peer  *Peer
	shown []rune
}

func newEditor(t *testing.T, name string) *editor {
	doc, err := New()
	peer, failed := NewPeer()
	if err != nil || failed != nil {
		t.Fatal(err, failed)
	}
	t.Cleanup(doc.Close)
	t.Cleanup(peer.Close)
	return &editor{T: t, name: name, doc: doc, peer: peer}
}

func (e *editor) insert(at int, text string) {
	if _, err := e.doc.Insert(e.name, at, text); err != nil {
		e.Fatal(err)
	}
	e.shown = []rune(string(e.shown[:at]) + text + string(e.shown[at:]))
}

func (e *editor) hear(sent []byte) []byte {
	seen := e.doc.Count()
	reply, err := e.doc.Receive(e.peer, sent)
	changes, failed := e.doc.Changes(seen)
	if err != nil || failed != nil {
		e.Fatal(err, failed)
	}
	for _, c := range changes {
		switch c.Kind {
		case Insertion:
			e.shown = append(e.shown[:c.At], append([]rune{c.Ch}, e.shown[c.At:]...)...)
		case Deletion:
			e.shown = append(e.shown[:c.At], e.shown[c.At+1:]...)
		}
	}
	if text, err := e.doc.Text(); err != nil || text != string(e.shown) {
		e.Fatalf("%q is shown, and not %q, %v", string(e.shown), text, err)
	}
	return reply
}

func must[T any](t *testing.T, value T, err error) T {
	if err != nil {
		t.Fatal(err)
	}
	return value
}

func TestTwoEditorsShowOneText(t *testing.T) {
	ada, bob := newEditor(t, "ada"), newEditor(t, "bob")
	for round := 0; round < 200; round++ {
		ada.insert(round*7%(len(ada.shown)+1), "é𝄞a")
		bob.insert(round*5%(len(bob.shown)+1), "tea")
		question, err := ada.doc.Ask()
		ada.hear(bob.hear(must(t, question, err)))
		question, err = bob.doc.Ask()
		bob.hear(ada.hear(must(t, question, err)))
		if string(ada.shown) != string(bob.shown) {
			t.Fatal(string(ada.shown), string(bob.shown))
		}
	}
	file, err := ada.doc.Save()
	again, err := Open(must(t, file, err))
	defer must(t, again, err).Close()
	if again.Len() != len(ada.shown) {
		t.Fatal(again.Len(), len(ada.shown))
	}
}

func TestEachCallAnswers(t *testing.T) {
	tea := newEditor(t, "ada").doc
	is := func(want any) func(any, error) {
		return func(got any, err error) {
			t.Helper()
			if err != nil || got != want {
				t.Errorf("%v, and not %v: %v", got, want, err)
			}
		}
	}
	is(4)(tea.Insert("ada", 0, "te𝄞a"))
	is("e𝄞")(tea.Range(1, 2))
	is(4)(tea.ToUTF16(3))
	is(3)(tea.FromUTF16(4))
	is(6)(tea.ToBytes(3))
	is(3)(tea.FromBytes(6))
	is(1)(tea.Delete("ada", 2, 1))
	is(1)(tea.Mark("ada", "noon"))
	is("ada:5 noon\n")(tea.Marks())
	is("ada:5")(tea.Heads())
	is("te𝄞a")(tea.TextAt("ada:3"))
	is("ada:3")(tea.Caret(3))
	is(1)(tea.Undo("bob", "ada:4", 1))
	is(4)(tea.CaretIndex("ada:3"))
	is("ada:0 2 te\nbob:0 1 𝄞\nada:3 1 a\n")(tea.Blame("", 80))
	other := newEditor(t, "bob")
	events, err := tea.Events(0)
	other.hear(must(t, events, err))
	is("te𝄞a")(other.doc.Text())
}

func TestWhatIsRefusedSaysWhy(t *testing.T) {
	tea := newEditor(t, "ada")
	is := func(status uint32, number uint64) func(any, error) {
		return func(_ any, err error) {
			t.Helper()
			var refused *Error
			if !errors.As(err, &refused) || refused.Status != status || refused.Number != number {
				t.Errorf("%v, and not status %d, number %d", err, status, number)
			}
		}
	}
	is(2, 0)(tea.doc.Insert("ada", 1, "tea"))
	is(2, 0)(tea.doc.Delete("ada", -1, 1))
	is(8, 3)(tea.doc.Insert("ada lovelace", 0, "tea"))
	is(12, 3)(Open([]byte("tea")))
	is(20, 9)(tea.doc.Receive(tea.peer, []byte{9, 0, 0, 0, 0}))
	if tea.doc.Len() != 0 {
		t.Error("a refused call changed the text")
	}
}
