-- Two editors that keep their own text show one, and each call answers. Run it where `require "egw"` finds the module.
local egw = require "egw"

local function is(got, want)
  if got ~= want then error(("%s, and not %s"):format(tostring(got), tostring(want)), 2) end
end

-- An editor: a document, what it hears from the other, and the characters that its user sees.
local function editor(name)
  return { name = name, document = egw.new(), peer = egw.peer(), shown = {} }
end

local function insert(one, at, letter)
  one.document:insert(one.name, at, letter)
  table.insert(one.shown, at + 1, letter)
end

local function hear(one, bytes)
  local seen = one.document:count()
  local reply, over = one.document:receive(one.peer, bytes)
  is(over, nil)
  for _, change in ipairs(one.document:changes(seen)) do
    if change.kind == "insert" then table.insert(one.shown, change.at + 1, string.char(change.ch)) end
    if change.kind == "delete" then table.remove(one.shown, change.at + 1) end
  end
  is(table.concat(one.shown), one.document:text())
  return reply
end

local ada, bob = editor "ada", editor "bob"
for round = 0, 199 do
  insert(ada, round * 7 % (#ada.shown + 1), "a")
  insert(bob, round * 5 % (#bob.shown + 1), "b")
  ada.document:delete("ada", round * 3 % #ada.shown)
  table.remove(ada.shown, round * 3 % #ada.shown + 1)
  hear(ada, hear(bob, ada.document:ask()))
  hear(bob, hear(ada, bob.document:ask()))
  is(ada.document:text(), bob.document:text())
end
is(egw.open(ada.document:save()):text(), ada.document:text())

local tea = egw.new()
is(tea:insert("ada", 0, "te𝄞a"), 4)
is(tea:length(), 4)
is(tea:range(1, 2), "e𝄞")
is(tea:to_utf16(3), 4)
is(tea:from_utf16(4), 3)
is(tea:to_bytes(3), 6)
is(tea:from_bytes(6), 3)
is(tea:delete("ada", 2), 1)
is(tea:mark("ada", "noon"), 1)
is(tea:marks(), "ada:5 noon\n")
is(tea:heads(), "ada:5")
is(tea:text "ada:3", "te𝄞a")
is(tea:caret(3), "ada:3")
is(tea:undo("bob", "ada:4"), 1)
is(tea:caret_index "ada:3", 4)
is(tea:blame(), "ada:0 2 te\nbob:0 1 𝄞\nada:3 1 a\n")

local done, refused = pcall(tea.insert, tea, "ada lovelace", 0, "tea")
is(done, false)
is(tostring(refused), "egw: status 8, number 3")
local _, over = tea:receive(egw.peer(), "\9\0\0\0\0")
is(tostring(over), "egw: status 20, number 9")
is(pcall(egw.open, "tea"), false)
print "two editors show one text, and each call answers"
