//! Collaborative plain text: documents that several people change apart, and that show the same text once they hold the same events.
//!
//! Indices count characters, as `str::chars` does. What each call does, `egw.h` says in full.

mod raw;
mod status;

pub use status::Status;

use raw::{Answer, Handle};

/// A call that didn't do what it says. Nothing is changed by it, unless it was `receive`.
#[derive(Debug, Clone, PartialEq, Eq)]
pub struct Error {
    pub status: Status,
    /// What belongs to the status, as `egw.h` says.
    pub number: u64,
    /// Of `receive` alone: what is still to be sent to the peer. What was received by then is held, so take its changes.
    pub reply: Vec<u8>,
}

impl std::fmt::Display for Error {
    fn fmt(&self, f: &mut std::fmt::Formatter<'_>) -> std::fmt::Result {
        write!(f, "{:?}, {}", self.status, self.number)
    }
}

impl std::error::Error for Error {}

pub type Result<T> = std::result::Result<T, Error>;

/// One change of a text.
#[derive(Debug, Clone, Copy, PartialEq, Eq)]
pub enum Change {
    Nothing,
    Insert { at: u32, ch: char },
    Delete { at: u32 },
}

impl From<raw::Change> for Change {
    fn from(change: raw::Change) -> Change {
        match (change.kind, char::from_u32(change.ch)) {
            (1, Some(ch)) => Change::Insert { at: change.at, ch },
            (2, _) => Change::Delete { at: change.at },
            _ => Change::Nothing,
        }
    }
}

fn checked(answer: Answer) -> Result<u64> {
    match Status::from(answer.status) {
        Status::Ok => Ok(answer.number),
        status => Err(Error { status, number: answer.number, reply: Vec::new() }),
    }
}

fn words(bytes: Vec<u8>) -> String {
    String::from_utf8(bytes).expect("what a document finds is UTF-8 here")
}

/// What came from one connection and is no whole frame yet.
pub struct Peer(Handle);

/// A text with its whole history.
pub struct Document(Handle);

// Each call has the document and the peer alone, as `&mut` says; which thread makes it doesn't matter.
unsafe impl Send for Peer {}
unsafe impl Send for Document {}

impl Peer {
    pub fn new() -> Result<Peer> {
        let mut peer = Peer(Handle::NULL);
        checked(unsafe { raw::egw_peer_new(&mut peer.0) })?;
        Ok(peer)
    }
}

impl Drop for Peer {
    fn drop(&mut self) {
        unsafe { raw::egw_peer_free(&mut self.0) }
    }
}

impl Drop for Document {
    fn drop(&mut self) {
        unsafe { raw::egw_free(&mut self.0) }
    }
}

impl Document {
    /// A document without events.
    pub fn new() -> Result<Document> {
        let mut document = Document(Handle::NULL);
        checked(unsafe { raw::egw_new(&mut document.0) })?;
        Ok(document)
    }

    /// The document of an event file's bytes.
    pub fn open(file: &[u8]) -> Result<Document> {
        let mut document = Document(Handle::NULL);
        checked(unsafe { raw::egw_open(&mut document.0, file.as_ptr(), file.len()) })?;
        Ok(document)
    }

    /// How many characters the text has.
    pub fn length(&mut self) -> u32 {
        unsafe { raw::egw_length(&mut self.0) }
    }

    /// How many events are held.
    pub fn count(&mut self) -> u32 {
        unsafe { raw::egw_count(&mut self.0) }
    }

    /// Inserts a text at an index, as an agent: the name of this copy. Answers how many events were made.
    pub fn insert(&mut self, agent: &str, at: u32, text: &str) -> Result<u64> {
        checked(unsafe { raw::egw_insert(&mut self.0, agent.as_ptr(), agent.len(), at, text.as_ptr(), text.len()) })
    }

    /// Deletes so many characters from an index on, as an agent.
    pub fn delete(&mut self, agent: &str, at: u32, count: u32) -> Result<u64> {
        checked(unsafe { raw::egw_delete(&mut self.0, agent.as_ptr(), agent.len(), at, count) })
    }

    /// Makes a save under a label, as an agent, which joins all heads.
    pub fn mark(&mut self, agent: &str, label: &str) -> Result<u64> {
        checked(unsafe { raw::egw_mark(&mut self.0, agent.as_ptr(), agent.len(), label.as_ptr(), label.len()) })
    }

    /// Undoes so many events of one agent, from the one with the id `of` on, as `ada:4`, by new events of an agent.
    pub fn undo(&mut self, agent: &str, of: &str, count: u32) -> Result<u64> {
        checked(unsafe { raw::egw_undo(&mut self.0, agent.as_ptr(), agent.len(), of.as_ptr(), of.len(), count) })
    }

    /// The text.
    pub fn text(&mut self) -> Result<String> {
        let answer = unsafe { raw::egw_text(&mut self.0) };
        self.found(answer).map(words)
    }

    /// So many characters of the text from an index on. All of them have to be there.
    pub fn range(&mut self, from: u32, count: u32) -> Result<String> {
        let answer = unsafe { raw::egw_range(&mut self.0, from, count) };
        self.found(answer).map(words)
    }

    /// The text of a version: what `heads` answered once.
    pub fn text_at(&mut self, version: &str) -> Result<String> {
        let answer = unsafe { raw::egw_text_at(&mut self.0, version.as_ptr(), version.len()) };
        self.found(answer).map(words)
    }

    /// How many code units of UTF-16 stand before an index.
    pub fn to_utf16(&mut self, at: u32) -> Result<u64> {
        checked(unsafe { raw::egw_to_utf16(&mut self.0, at) })
    }

    /// The index before which just so many code units of UTF-16 stand.
    pub fn from_utf16(&mut self, units: u64) -> Result<u64> {
        checked(unsafe { raw::egw_from_utf16(&mut self.0, units) })
    }

    /// How many bytes of UTF-8 stand before an index.
    pub fn to_bytes(&mut self, at: u32) -> Result<u64> {
        checked(unsafe { raw::egw_to_bytes(&mut self.0, at) })
    }

    /// The index before which just so many bytes of UTF-8 stand.
    pub fn from_bytes(&mut self, bytes: u64) -> Result<u64> {
        checked(unsafe { raw::egw_from_bytes(&mut self.0, bytes) })
    }

    /// The version that the document is at now.
    pub fn heads(&mut self) -> Result<String> {
        let answer = unsafe { raw::egw_heads(&mut self.0) };
        self.found(answer).map(words)
    }

    /// The bytes of an event file.
    pub fn save(&mut self) -> Result<Vec<u8>> {
        let answer = unsafe { raw::egw_save(&mut self.0) };
        self.found(answer)
    }

    /// The bytes of a question for what this document lacks. Send them to a peer.
    pub fn ask(&mut self) -> Result<Vec<u8>> {
        let answer = unsafe { raw::egw_ask(&mut self.0) };
        self.found(answer)
    }

    /// The events from number `since` on, as the bytes that a peer is sent who lacks them.
    pub fn events(&mut self, since: u32) -> Result<Vec<u8>> {
        let answer = unsafe { raw::egw_events(&mut self.0, since) };
        self.found(answer)
    }

    /// The marks, oldest first: of each a line with its id, a space and its label.
    pub fn marks(&mut self) -> Result<String> {
        let answer = unsafe { raw::egw_marks(&mut self.0) };
        self.found(answer).map(words)
    }

    /// The caret at an index of the text, for `caret_index`.
    pub fn caret(&mut self, at: u32) -> Result<String> {
        let answer = unsafe { raw::egw_caret(&mut self.0, at) };
        self.found(answer).map(words)
    }

    /// The index at which a caret is now, whatever came since.
    pub fn caret_index(&mut self, caret: &str) -> Result<u64> {
        checked(unsafe { raw::egw_caret_index(&mut self.0, caret.as_ptr(), caret.len()) })
    }

    /// Who inserted which part of the text of a version, or of the text as it is where there are no words: lines with an id, a number
    /// of characters, and as many of these as fit into so many columns.
    pub fn blame(&mut self, version: &str, columns: u32) -> Result<String> {
        let answer = unsafe { raw::egw_blame(&mut self.0, version.as_ptr(), version.len(), columns) };
        self.found(answer).map(words)
    }

    /// Takes bytes that a peer sent, cut anywhere. Answers the bytes that are to be sent back. After an error the session is over.
    pub fn receive(&mut self, peer: &mut Peer, bytes: &[u8]) -> Result<Vec<u8>> {
        let answer = unsafe { raw::egw_receive(&mut self.0, &mut peer.0, bytes.as_ptr(), bytes.len()) };
        let reply = self.copied();
        match checked(answer) {
            Ok(_) => Ok(reply),
            Err(error) => Err(Error { reply, ..error }),
        }
    }

    /// What the events from number `since` on do to the text: done in turn to the text as it was then, they leave the text.
    pub fn changes(&mut self, since: u32) -> Result<Vec<Change>> {
        let count = checked(unsafe { raw::egw_changes(&mut self.0, since) })? as usize;
        let mut changes = vec![raw::Change { kind: 0, at: 0, ch: 0 }; count];
        unsafe { raw::egw_copy_changes(&mut self.0, changes.as_mut_ptr(), count) };
        Ok(changes.into_iter().map(Change::from).collect())
    }

    /// The bytes that a call found, if it did.
    fn found(&mut self, answer: Answer) -> Result<Vec<u8>> {
        checked(answer)?;
        Ok(self.copied())
    }

    fn copied(&mut self) -> Vec<u8> {
        let count = unsafe { raw::egw_copy(&mut self.0, std::ptr::null_mut(), 0) };
        let mut bytes = vec![0; count];
        unsafe { raw::egw_copy(&mut self.0, bytes.as_mut_ptr(), count) };
        bytes
    }
}
