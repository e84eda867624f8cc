"""What a search learnt, as its log has it: which clauses are live behind it, and which of them a search that goes on takes with it."""


def clause_and_hints(rest):
    """Parts what stands behind the id of an addition: its literals, and its hints with the 0 at their end."""
    if rest.startswith(b"0 "):
        return b"", rest[2:]
    lits, _, hints = rest.partition(b" 0 ")
    return lits, hints


def live_behind(lines, live):
    """Changes the literals of live clauses, by id, to those that are live behind the lines of a log. All is words as bytes."""
    for line in lines:
        added, _, rest = line.partition(b" ")
        if rest.startswith(b"d "):
            for word in rest.split()[1:-1]:
                live.pop(word, None)
        else:
            live[added] = clause_and_hints(rest)[0]


def shortest(live, most):
    """Returns the ids of the shortest of live clauses, those first, and of as many as `most`."""
    return sorted(live, key=lambda word: live[word].count(b" "))[:most]
