"""Checks a proof that clauses have no solution, by itself: it reads both texts anew, and knows nothing of who wrote them.

Each step adds a clause that must follow by unit propagation: where all of its literals are false, propagation meets a clause that is false.
A step of any other kind is no proof. What the proof takes away stays, since more clauses prove no less.
"""

import time

# a proof that takes longer to check counts as none
MOST_SECONDS = 120


class Checker:
    """The clauses that are known, each with two literals that are watched, and the literals that they force."""

    def __init__(self) -> None:
        self.watched: dict[int, list[list[int]]] = {}
        self.true: set[int] = set()
        self.is_false = False

    def add(self, clause: list[int]) -> None:
        """Takes a clause that is known to hold."""
        literals = sorted(dict.fromkeys(clause), key=lambda literal: -literal in self.true)
        if any(-literal in literals for literal in literals):
            return
        if not literals or -literals[0] in self.true:
            self.is_false = True
        elif len(literals) == 1 or -literals[1] in self.true:
            self.is_false |= not self._forced([literals[0]], [])
        if len(literals) > 1:
            for literal in literals[:2]:
                self.watched.setdefault(literal, []).append(literals)

    def follows(self, clause: list[int]) -> bool:
        """Whether a clause follows by propagation."""
        if self.is_false:
            return True
        trail: list[int] = []
        found = not self._forced([-literal for literal in clause], trail)
        self.true.difference_update(trail)
        return found

    def _forced(self, literals: list[int], trail: list[int]) -> bool:
        """Makes literals true, and all that they force; whether no clause is false then."""
        place = len(trail)
        for literal in literals:
            if -literal in self.true:
                return False
            if literal not in self.true:
                self.true.add(literal)
                trail.append(literal)
        while place < len(trail):
            if not self._visit(-trail[place], trail):
                return False
            place += 1
        return True

    def _visit(self, false: int, trail: list[int]) -> bool:
        """Goes through the clauses that watch a literal that is false now; whether none of them is false."""
        kept: list[list[int]] = []
        clauses = self.watched.get(false, [])
        for number, clause in enumerate(clauses):
            if clause[0] == false:
                clause[0], clause[1] = clause[1], false
            other = clause[0]
            if other in self.true:
                kept.append(clause)
                continue
            for place in range(2, len(clause)):
                if -clause[place] not in self.true:
                    clause[1], clause[place] = clause[place], false
                    self.watched.setdefault(clause[1], []).append(clause)
                    break
            else:
                kept.append(clause)
                if -other in self.true:
                    self.watched[false] = kept + clauses[number + 1 :]
                    return False
                self.true.add(other)
                trail.append(other)
        self.watched[false] = kept
        return True


def _clauses(text: str) -> list[list[int]]:
    """The clauses of a text in the form of DIMACS."""
    words = [word for line in text.split("\n") if line[:1] not in ("c", "p", "") for word in line.split()]
    found: list[list[int]] = [[]]
    for word in words:
        if word == "0":
            found.append([])
        else:
            found[-1].append(int(word))
    if found.pop():
        raise ValueError("the last clause has no end")
    return found


def is_proof(clauses: str, proof: str) -> bool:
    """Whether the proof, a clause a line, shows that the clauses have no solution."""
    checker = Checker()
    ends = time.monotonic() + MOST_SECONDS
    try:
        for clause in _clauses(clauses):
            checker.add(clause)
        for line in proof.split("\n"):
            if checker.is_false:
                return True
            words = line.split()
            if not words or words[0] == "d":
                continue
            if words[-1] != "0" or time.monotonic() > ends:
                return False
            step = [int(word) for word in words[:-1]]
            if not checker.follows(step):
                return False
            checker.add(step)
    except ValueError:
        return False
    return checker.is_false
