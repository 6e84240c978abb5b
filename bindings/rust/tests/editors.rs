use egw::{Change, Document, Error, Peer, Status};

/// An editor: a document, what it hears from the other, and the text as its user sees it.
struct Editor {
    name: &'static str,
    document: Document,
    peer: Peer,
    shown: Vec<char>,
}

impl Editor {
    fn new(name: &'static str) -> Editor {
        Editor { name, document: Document::new().unwrap(), peer: Peer::new().unwrap(), shown: Vec::new() }
    }

    fn insert(&mut self, at: usize, text: &str) {
        self.document.insert(self.name, at as u32, text).unwrap();
        self.shown.splice(at..at, text.chars());
    }

    fn delete(&mut self, at: usize) {
        self.document.delete(self.name, at as u32, 1).unwrap();
        self.shown.remove(at);
    }

    fn hear(&mut self, bytes: &[u8]) -> Vec<u8> {
        let seen = self.document.count();
        let reply = self.document.receive(&mut self.peer, bytes).unwrap();
        for change in self.document.changes(seen).unwrap() {
            match change {
                Change::Insert { at, ch } => self.shown.insert(at as usize, ch),
                Change::Delete { at } => drop(self.shown.remove(at as usize)),
                Change::Nothing => {}
            }
        }
        assert_eq!(self.shown.iter().collect::<String>(), self.document.text().unwrap());
        reply
    }
}

#[test]
fn two_editors_show_one_text() {
    let (mut ada, mut bob) = (Editor::new("ada"), Editor::new("bob"));
    for round in 0..200 {
        ada.insert(round * 7 % (ada.shown.len() + 1), "é𝄞a");
        bob.insert(round * 5 % (bob.shown.len() + 1), "tea");
        ada.delete(round * 3 % ada.shown.len());
        let answer = bob.hear(&ada.document.ask().unwrap());
        ada.hear(&answer);
        let answer = ada.hear(&bob.document.ask().unwrap());
        bob.hear(&answer);
        assert_eq!(ada.shown, bob.shown);
    }
    let mut reopened = Document::open(&ada.document.save().unwrap()).unwrap();
    assert_eq!(reopened.text(), ada.document.text());
    assert_eq!(reopened.length() as usize, ada.shown.len());
}

#[test]
fn each_call_answers() {
    let mut tea = Document::new().unwrap();
    assert_eq!(tea.insert("ada", 0, "te𝄞a"), Ok(4));
    assert_eq!(tea.range(1, 2).as_deref(), Ok("e𝄞"));
    assert_eq!((tea.to_utf16(3), tea.from_utf16(4), tea.to_bytes(3), tea.from_bytes(6)), (Ok(4), Ok(3), Ok(6), Ok(3)));
    assert_eq!(tea.delete("ada", 2, 1), Ok(1));
    assert_eq!(tea.mark("ada", "noon"), Ok(1));
    assert_eq!(tea.marks().as_deref(), Ok("ada:5 noon\n"));
    assert_eq!(tea.heads().as_deref(), Ok("ada:5"));
    assert_eq!(tea.text_at("ada:3").as_deref(), Ok("te𝄞a"));
    let caret = tea.caret(3).unwrap();
    assert_eq!(tea.undo("bob", "ada:4", 1), Ok(1));
    assert_eq!(tea.text().as_deref(), Ok("te𝄞a"));
    assert_eq!(tea.caret_index(&caret), Ok(4));
    assert!(tea.blame("", 80).unwrap().starts_with("ada:0 2 te\n"));
    let mut other = Document::new().unwrap();
    other.receive(&mut Peer::new().unwrap(), &tea.events(0).unwrap()).unwrap();
    assert_eq!(other.text(), tea.text());
}

#[test]
fn what_is_refused_says_why() {
    let mut tea = Document::new().unwrap();
    let refused = |status, number| Some(Error { status, number, reply: Vec::new() });
    assert_eq!(tea.insert("ada", 1, "tea").err(), refused(Status::OutOfRange, 0));
    assert_eq!(tea.insert("ada lovelace", 0, "tea").err(), refused(Status::BadName, 3));
    assert_eq!(tea.text_at("eve:1").err(), refused(Status::UnknownEvent, 0));
    assert_eq!(Document::open(b"tea").err().map(|error| error.status), Some(Status::ShortFile));
    let error = tea.receive(&mut Peer::new().unwrap(), &[9, 0, 0, 0, 0]).unwrap_err();
    assert_eq!(error.status, Status::FrameKind);
    assert_eq!(tea.length(), 0);
}
