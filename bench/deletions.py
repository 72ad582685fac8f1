"""Writes version 2 of a certificate's proof by the rule itself: behind each line but the last one the ids of the derived
clauses that it was the last to hint, ascending. It reads the text of version 1, and shares nothing with the programs."""


def start_of(lines):
    """Where the proof's header stands, how it begins in version 2, where its lines begin, and how many there are."""
    for place, line in enumerate(lines):
        words = line.split()
        if words[:2] == ["p", "dqr"]:
            return place, f"p dqr2 {words[2]}", place + 1 + int(words[2]), int(words[3])
        if words[:1] == ["dqp"]:
            return place, "dqp2", place + 1, int(words[1])
    return None


def step_of(line):
    """The id and the hints of a derivation line."""
    numbers = [int(word) for word in line.split()]
    return numbers[0], numbers[numbers.index(0, 1) + 1 : -1]


def last_uses(steps):
    """By place, the ids of lines whose last use it is."""
    ids, last = {step[0] for step in steps}, {}
    for place, (_, hints) in enumerate(steps):
        last.update((hint, place) for hint in hints if hint in ids)
    spent = {}
    for line, place in last.items():
        spent.setdefault(place, []).append(line)
    return spent


def with_deletions(certificate):
    """The certificate in version 2, or as it is where nothing is to be deleted."""
    lines = certificate.split("\n")
    found = start_of(lines)
    if found is None:
        return certificate
    header, words, first, count = found
    spent = last_uses([step_of(line) for line in lines[first : first + count]])
    proof = []
    for place, line in enumerate(lines[first : first + count]):
        proof.append(line)
        if place in spent and place < count - 1:
            proof.append(" ".join(["d", *map(str, sorted(spent[place])), "0"]))
    if len(proof) == count:
        return certificate
    front, behind = lines[header + 1 : first], lines[first + count :]
    return "\n".join([*lines[:header], f"{words} {len(proof)}", *front, *proof, *behind])
