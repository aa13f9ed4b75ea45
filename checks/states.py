"""Counts the states of the k-assignment machine on small chains, and what the others do when one party stops between two accesses or two calls, by
a program that was written from the tables of docs/K-ASSIGNMENT.md, apart from the crates. In each state the seats that are held differ. What
crates/kex_search counts has to be the same."""

import sys
from collections import deque

CHAINS = ((2, 1), (3, 1), (3, 2))
OUT = ("Out", 0)


class Net:
    """Stages with their capacities, where each leads, and where each party starts; None is Exit."""

    def __init__(self, width, capacities, after, start):
        self.parties, self.width, self.capacities, self.after, self.start = len(start), width, tuple(capacities), after, start

    def opening(self):
        stages = len(self.capacities)
        return (OUT,) * self.parties, self.capacities, (None,) * stages, (False,) * (self.width - 1), (False,) * self.width

    def towards(self, stage):
        """Where a party goes that is about to come to a stage, or to Exit."""
        if stage is not None:
            return "Dec", stage
        return ("Naming", 0) if self.width > 1 else ("Named", 0)

    def path(self, party):
        stage = self.start[party]
        while stage is not None:
            yield stage
            stage = self.after[stage]

    def back(self, party, stage=None):
        """Where a party goes that has left this stage and all behind it, or has given back its seat."""
        before = [it for it in self.path(party) if stage is None or it < stage]
        return ("Inc", before[-1]) if before else OUT

    def move(self, state, party):
        """The state after the one access that is due for the party."""
        places, counters, named, bits, cards = map(list, state)
        place, at = places[party]
        if place == "Out":
            place, at = self.towards(self.start[party])
        if place == "Dec":
            has_room = counters[at] != 0
            counters[at] -= 1
            after = self.towards(self.after[at]) if has_room else ("Mark", at)
        elif place == "Mark":
            named[at] = party
            after = ("Look", at)
        elif place == "Look":
            after = self.towards(self.after[at]) if counters[at] >= 0 else ("Spin", at)
        elif place == "Spin":
            after = self.towards(self.after[at]) if named[at] != party else ("Spin", at)
        elif place == "Naming":
            last = at + 1 == self.width - 1
            after = ("Named", at) if not bits[at] else ("Named", at + 1) if last else ("Naming", at + 1)
            bits[at] = True
        elif place == "Named":
            cards[at] = True
            after = ("Holding", at)
        elif place == "Holding":
            cards[at] = False
            after = ("Clearing", at) if at < self.width - 1 else self.back(party)
        elif place == "Clearing":
            bits[at] = False
            after = self.back(party)
        elif place == "Inc":
            counters[at] += 1
            after = ("Unmark", at)
        else:
            named[at] = party
            after = self.back(party, at)
        places[party] = after
        return tuple(map(tuple, (places, counters, named, bits, cards)))


def held(state):
    seats = [at for place, at in state[0] if place == "Holding"]
    if len(seats) != len(set(seats)):
        sys.exit(f"states: two hold one seat: {state}")
    return len(seats)


def chain(n, k):
    """Stage j admits n - 1 - j of those that come, and all start at the first."""
    width = min(n, k)
    stages = n - width
    return Net(width, range(n - 1, width - 1, -1), [*range(1, stages), None][:stages], [0 if stages else None] * n)


# The tree for five parties and two licences: parties 0 to 3 go through stages 0 and 1, and meet party 4 at stage 2.
TREE = Net(2, (3, 2, 2), (1, 2, None), (0, 0, 0, 0, 2))

# The net behind the fast gate for five parties and one licence: a tree of four stages, one stage behind it, and a pass that starts there.
GATED = Net(1, (1,) * 5, (2, 2, 3, 4, None), (0, 0, 1, 1, 3, 4))


def searched(net):
    """The line that the program prints of all states."""
    opening = net.opening()
    away, waiting = {opening: 0}, deque([opening])
    moves = still = 0
    while waiting:
        state = waiting.popleft()
        for party in range(net.parties):
            after = net.move(state, party)
            moves += 1
            still += after == state
            if after not in away:
                away[after] = away[state] + 1
                waiting.append(after)
    return f"{len(away)} states, {moves} moves, {still} of them change nothing, {max(map(held, away))} held at most, {max(away.values())} moves away at most"


def takes(state, party):
    return state[0][party][0] == "Named"


def stopped(net):
    """The line that the program prints of the runs in which one party stops."""
    runs = taken = idle = most = 0
    for stopper in range(net.parties):
        for accesses in range(13):
            state, others = net.opening(), [party for party in range(net.parties) if party != stopper]
            own = 0
            for turn, party in enumerate([stopper] * accesses + others * 200):
                own += turn >= accesses and takes(state, party)
                state = net.move(state, party)
                most = max(most, held(state))
            runs, taken, idle = runs + 1, taken + own, idle + (own == 0)
    return f"{runs} stops, {taken} seats taken by the others, none in {idle} of them, {most} held at most"


class Seats:
    """Seats with their sessions, each of which has a pass of the net. A session's call makes all accesses of its kind at once."""

    def __init__(self, net, sessions):
        self.net, self.state = net, net.opening()
        self.own = list(range(sessions))

    def place(self, session):
        return self.state[0][self.own[session]]

    def move(self, session):
        self.state = self.net.move(self.state, self.own[session])

    def begin(self, session):
        """Nothing is due before the first access; whoever starts at Exit is through at once."""
        return "through" if self.net.start[self.own[session]] is None else "entering"

    def turn(self, session):
        self.move(session)
        return "through" if self.place(session)[0] in ("Naming", "Named") else "entering"

    def name(self, session):
        while self.place(session)[0] != "Holding":
            self.move(session)
        return "holding"

    def leave(self, session):
        while self.place(session) != OUT:
            self.move(session)
        return "out"


class Gate(Seats):
    """The same behind a gate: a session that meets fewer others than there are seats takes the first free pass of the gate."""

    def __init__(self, net, sessions):
        super().__init__(net, sessions)
        self.parties, self.inside = range(sessions, net.parties), set()

    def begin(self, session):
        met, fast = len(self.inside), set(self.own) & set(self.parties)
        self.inside.add(session)
        if met < len(self.parties):
            self.own[session] = min(set(self.parties) - fast)
        return super().begin(session)

    def leave(self, session):
        left = super().leave(session)
        self.own[session] = session
        self.inside.remove(session)
        return left


def stopped_calls(made, net, sessions):
    """The line that the program prints of the runs in which one session stops between two calls."""
    runs = taken = idle = most = 0
    for stopper in range(sessions):
        for calls in range(13):
            seats, own = made(net, sessions), 0
            next_call = dict.fromkeys(range(sessions), "out")
            others = [session for session in range(sessions) if session != stopper]
            call = {"out": seats.begin, "entering": seats.turn, "through": seats.name, "holding": seats.leave}
            for turn, session in enumerate([stopper] * calls + others * 200):
                next_call[session] = call[next_call[session]](session)
                own += turn >= calls and next_call[session] == "holding"
                most = max(most, held(seats.state))
            runs, taken, idle = runs + 1, taken + own, idle + (own == 0)
    return f"{runs} stops, {taken} seats taken by the others, none in {idle} of them, {most} held at most"


def main():
    counted = "".join(f"chain({n}, {k}): {searched(chain(n, k))}\n" for n, k in CHAINS)
    counted += "".join(f"{name}: {stopped(net)}\n" for name, net in (("chain(3, 2)", chain(3, 2)), ("tree(5, 2)", TREE), ("gated(5, 1)", GATED)))
    counted += f"seats of chain(3, 2): {stopped_calls(Seats, chain(3, 2), 3)}\n"
    counted += f"seats of tree(5, 2): {stopped_calls(Seats, TREE, 5)}\n"
    counted += f"seats behind a gate(5, 1): {stopped_calls(Gate, GATED, 5)}\n"
    with open("crates/kex_search/stdout") as file:
        told = file.read()
    if counted != told:
        sys.exit(f"states: counted\n{counted}and not\n{told}")


main()
