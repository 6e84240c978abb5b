# Prints a net script of 2,000 lines, by which 8 peers come to hold the same events:
#
#     awk -v order=ORDER -f nets.awk      the order in which the packets of a round are delivered: forward, backward or drawn
#
# In each round the peers edit apart and send the events that they made to all others, in two pieces each; then the packets are
# delivered, some of them twice. So at the end of a round all hold the same events, whatever the order, and a piece that comes before
# the one in front of it waits. The edits and the packets are the same in each order.

# below: a drawn number below another; the same on every machine.
function below(bound) {
    seed = seed * 16807 % 2147483647
    return seed % bound
}

function put(line) {
    print line
    lines++
}

# letters: a text of so many characters, escaped as in a script.
function letters(count, text) {
    for (text = ""; count > 0; count--)
        text = text letter[below(8)]
    return text
}

# edits: what a peer types in a round; now and then it takes back what it has typed, and in the last round it deletes anywhere. The text
# has `own` characters, and so many events are made.
function edits(peer, own, last, n, at, count, events) {
    for (n = 0; n < 21; n++) {
        at = below(own + 1)
        count = 1 + below(6)
        put("ins p" peer " " at " " letters(count))
        own += count
        events += count
        if (last || n % 3 == 0) {
            if (last)
                at = below(own)
            count = last ? 1 : 1 + below(count)
            put("del p" peer " " at " " count)
            own -= count
            events += count
        }
    }
    made[peer] = events
    grown[peer] = own
}

# sends: packets with a peer's new events for all others. In front of them stand `held` events.
function sends(peer, held, other, cut) {
    for (other = 0; other < 8; other++)
        if (other != peer) {
            cut = 1 + below(made[peer] - 1)
            put("send p" peer " p" other " " held " " cut)
            put("send p" peer " p" other " " held + cut " " made[peer])
        }
}

# deliveries: those of a round, whose first packet has this number, in the order that is asked for. Each is answered by a packet.
function deliveries(first, n, at, kept) {
    for (n = 0; n < 112; n++)
        row[n] = first + n
    for (; n < 120; n++)
        row[n] = first + below(112)
    for (n = 119; n > 0; n--) {
        at = below(n + 1)
        if (order == "drawn") {
            kept = row[at]
            row[at] = row[n]
            row[n] = kept
        }
    }
    for (n = 0; n < 120; n++)
        put("deliver " row[order == "backward" ? 119 - n : n])
}

BEGIN {
    seed = 2026
    lines = whole = held = 0
    split("a b c d e é \\n", letter)
    letter[0] = " "
    for (peer = 0; peer < 8; peer++)
        put("peer p" peer)
    for (turn = 0; turn < 4; turn++) {
        common = whole
        for (peer = 0; peer < 8; peer++) {
            edits(peer, common, turn == 3)
            whole += grown[peer] - common
        }
        for (peer = 0; peer < 8; peer++)
            sends(peer, held)
        deliveries(turn * 232)
        for (peer = 0; peer < 8; peer++)
            held += made[peer]
        put("restart p" turn)
        put("agree")
    }
    for (peer = 0; lines < 1991; peer++)
        put("push p" peer % 8 " p" (peer + 3) % 8)
    for (peer = 0; peer < 8; peer++)
        put("show p" peer)
    put("agree")
}
