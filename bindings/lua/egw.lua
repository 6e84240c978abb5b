-- Collaborative plain text for LuaJIT: documents that several people change apart, and that show the same text once they hold the same
-- events. Indices count characters from 0 on. What each call does, egw.h says in full.
--
-- A call that doesn't do what it says raises a table { status = .., number = .. }, as egw.h has them.
local ffi = require "ffi"

ffi.cdef [[
typedef struct { void *at; } egw_document;
typedef struct { void *at; } egw_peer;
typedef struct { uint64_t number; uint32_t status; } egw_answer;
typedef struct { uint32_t kind, at, ch; } egw_change;
egw_answer egw_new(egw_document *document);
egw_answer egw_open(egw_document *document, const void *file, size_t len);
void egw_free(egw_document *document);
uint32_t egw_length(egw_document *document);
uint32_t egw_count(egw_document *document);
egw_answer egw_insert(egw_document *document, const void *agent, size_t agent_len, uint32_t at, const void *text, size_t text_len);
egw_answer egw_delete(egw_document *document, const void *agent, size_t agent_len, uint32_t at, uint32_t count);
egw_answer egw_mark(egw_document *document, const void *agent, size_t agent_len, const void *label, size_t label_len);
egw_answer egw_undo(egw_document *document, const void *agent, size_t agent_len, const void *of, size_t of_len, uint32_t count);
egw_answer egw_text(egw_document *document);
egw_answer egw_range(egw_document *document, uint32_t from, uint32_t count);
egw_answer egw_to_utf16(egw_document *document, uint32_t at);
egw_answer egw_from_utf16(egw_document *document, uint64_t units);
egw_answer egw_to_bytes(egw_document *document, uint32_t at);
egw_answer egw_from_bytes(egw_document *document, uint64_t bytes);
egw_answer egw_text_at(egw_document *document, const void *version, size_t len);
egw_answer egw_heads(egw_document *document);
egw_answer egw_save(egw_document *document);
egw_answer egw_ask(egw_document *document);
egw_answer egw_events(egw_document *document, uint32_t from);
egw_answer egw_marks(egw_document *document);
egw_answer egw_caret(egw_document *document, uint32_t at);
egw_answer egw_caret_index(egw_document *document, const void *caret, size_t len);
egw_answer egw_blame(egw_document *document, const void *version, size_t len, uint32_t columns);
egw_answer egw_receive(egw_document *document, egw_peer *peer, const void *bytes, size_t len);
egw_answer egw_changes(egw_document *document, uint32_t from);
size_t egw_copy(egw_document *document, void *out, size_t room);
size_t egw_copy_changes(egw_document *document, egw_change *out, size_t room);
egw_answer egw_peer_new(egw_peer *peer);
void egw_peer_free(egw_peer *peer);
]]

-- The shared library: the one that EGW_LIBRARY names, or else where `make install` put it, or where the system keeps libraries.
local function load()
  local named = os.getenv "EGW_LIBRARY"
  if named then return ffi.load(named) end
  local here = debug.getinfo(1, "S").source:match "^@(.*/)" or "./"
  local is_installed, installed = pcall(ffi.load, here .. "../../../lib/libegw.so")
  return is_installed and installed or ffi.load "egw"
end

local library = load()
local kinds = { [0] = "nothing", "insert", "delete" }

local Refused = {}
Refused.__index = Refused
Refused.__tostring = function(refused) return ("egw: status %d, number %d"):format(refused.status, refused.number) end

local function refusal(answer)
  return setmetatable({ status = answer.status, number = tonumber(answer.number) }, Refused)
end

local function checked(answer)
  if answer.status ~= 0 then error(refusal(answer), 0) end
  return tonumber(answer.number)
end

local function copied(at)
  local count = tonumber(library.egw_copy(at, nil, 0))
  local out = ffi.new("uint8_t[?]", count + 1)
  library.egw_copy(at, out, count)
  return ffi.string(out, count)
end

local function found(at, answer)
  checked(answer)
  return copied(at)
end

local Document = {}
Document.__index = Document

-- A document without events, or that of an event file's bytes.
local function open(file)
  local at = ffi.gc(ffi.new "egw_document", library.egw_free)
  checked(file and library.egw_open(at, file, #file) or library.egw_new(at))
  return setmetatable({ at = at }, Document)
end

-- What came from one connection and is no whole frame yet.
local function peer()
  local at = ffi.gc(ffi.new "egw_peer", library.egw_peer_free)
  checked(library.egw_peer_new(at))
  return { at = at }
end

-- How many characters the text has, and how many events are held.
function Document:length() return library.egw_length(self.at) end
function Document:count() return library.egw_count(self.at) end

-- Edits as an agent, the name of this copy. Each answers how many events were made.
function Document:insert(agent, at, text) return checked(library.egw_insert(self.at, agent, #agent, at, text, #text)) end
function Document:delete(agent, at, count) return checked(library.egw_delete(self.at, agent, #agent, at, count or 1)) end
function Document:mark(agent, label) return checked(library.egw_mark(self.at, agent, #agent, label, #label)) end
function Document:undo(agent, of, count) return checked(library.egw_undo(self.at, agent, #agent, of, #of, count or 1)) end

-- The text, that of a version, or so many characters of it from an index on.
function Document:text(version)
  if version then return found(self.at, library.egw_text_at(self.at, version, #version)) end
  return found(self.at, library.egw_text(self.at))
end
function Document:range(from, count) return found(self.at, library.egw_range(self.at, from, count)) end

-- How many units of UTF-16, or bytes of UTF-8, stand before an index; and the index before which so many stand.
function Document:to_utf16(at) return checked(library.egw_to_utf16(self.at, at)) end
function Document:from_utf16(units) return checked(library.egw_from_utf16(self.at, units)) end
function Document:to_bytes(at) return checked(library.egw_to_bytes(self.at, at)) end
function Document:from_bytes(count) return checked(library.egw_from_bytes(self.at, count)) end

-- The version that the document is at now; the bytes of an event file; those of a question for what is lacking; the events from a number
-- on, as a peer is sent them; and the marks, of each a line with its id, a space and its label.
function Document:heads() return found(self.at, library.egw_heads(self.at)) end
function Document:save() return found(self.at, library.egw_save(self.at)) end
function Document:ask() return found(self.at, library.egw_ask(self.at)) end
function Document:events(since) return found(self.at, library.egw_events(self.at, since)) end
function Document:marks() return found(self.at, library.egw_marks(self.at)) end

-- A caret at an index, the index at which it is now, and who inserted which part of the text.
function Document:caret(at) return found(self.at, library.egw_caret(self.at, at)) end
function Document:caret_index(caret) return checked(library.egw_caret_index(self.at, caret, #caret)) end
function Document:blame(version, columns)
  version = version or ""
  return found(self.at, library.egw_blame(self.at, version, #version, columns or 80))
end

-- Takes bytes that a peer sent, cut anywhere. Answers the bytes that are to be sent back and, where the session is over, why.
function Document:receive(from, bytes)
  local answer = library.egw_receive(self.at, from.at, bytes, #bytes)
  return copied(self.at), answer.status ~= 0 and refusal(answer) or nil
end

-- What the events from a number on do to the text, in order: a list of { kind, at, ch }, where ch is the number of the character.
function Document:changes(since)
  local count = checked(library.egw_changes(self.at, since))
  local out, changes = ffi.new("egw_change[?]", count + 1), {}
  library.egw_copy_changes(self.at, out, count)
  for k = 1, count do
    local change = out[k - 1]
    changes[k] = { kind = kinds[change.kind], at = change.at, ch = change.ch }
  end
  return changes
end

return { new = open, open = open, peer = peer }
