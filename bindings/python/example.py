"""Two editors that keep the text as a list of characters, and are told what to change in it."""

from egw import Document, Peer

ada, bob = Document(), Document()
at_ada, at_bob = Peer(), Peer()  # what each hears from the other

ada.insert("ada", 0, "tea and cake")
shown = list(ada.text())
bob.insert("bob", 0, ", at noon")

# Ada asks for what she lacks, bob answers, and she is told what that changes in the text she sees.
seen = ada.count()
question = ada.ask()
events = bob.receive(at_bob, question)
ada.receive(at_ada, events)
for change in ada.changes(seen):
    change.done_to(shown)

print("".join(shown))
assert "".join(shown) == ada.text()
