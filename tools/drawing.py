"""Which changes are tried, and in which order: the crates in turn, in a crate its functions in turn, in a function the kinds of change in
turn. The seed and the sources decide it alone."""

import random
from collections import Counter


def in_turn(lists):
    """The first of each list, then the second of each, and so on."""
    longest = max(map(len, lists), default=0)
    return [one[i] for i in range(longest) for one in lists if i < len(one)]


def grouped(changes, name):
    """The changes in a list for each value that `name` gives, in the order in which the values come."""
    groups = {}
    for change in changes:
        groups.setdefault(name(change), []).append(change)
    return list(groups.values())


def order(changes, seed):
    """The changes of one crate in the order in which they are drawn. A function gives the kind that the crate gave least of so far."""
    mixed = list(changes)
    random.Random(f"{seed} {mixed[0].crate if mixed else ''}").shuffle(mixed)
    groups = []
    for group in grouped(mixed, lambda change: change.group):
        kinds = grouped(group, lambda change: change.kind)
        groups.append([in_turn(grouped(kind, lambda change: change.owner)) for kind in kinds])
    given, result = Counter(), []
    while groups:
        for kinds in groups:
            least = min(kinds, key=lambda kind: given[kind[0].kind])
            given[least[0].kind] += 1
            result.append(least.pop(0))
            if not least:
                kinds.remove(least)
        groups = [kinds for kinds in groups if kinds]
    return result


class Deck:
    """The changes of one crate, and how many of them were drawn."""

    def __init__(self, changes, seed):
        self.cards = order(changes, seed)
        self.drawn = 0

    def draw(self):
        """The next change, or none where all were drawn."""
        if self.drawn == len(self.cards):
            return None
        self.drawn += 1
        return self.cards[self.drawn - 1]

    @property
    def left(self):
        return len(self.cards) - self.drawn


def shares(decks, count):
    """How many of `count` changes each crate gives: as many as each other, but for crates that have fewer left."""
    share = dict.fromkeys(decks, 0)
    while count > 0:
        open_decks = [name for name in decks if decks[name].left > share[name]]
        if not open_decks:
            break
        for name in open_decks[:count]:
            share[name] += 1
        count -= min(count, len(open_decks))
    return share
