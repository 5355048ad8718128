# SPDX-License-Identifier: BSD-3-Clause
"""Chains of rules, brought into one list of boxes whose first match decides, and written as rules of aclc.

A box may be dear: two addresses that are excluded take 128 rules of IPv6 each, and 16,384 together. Where a box of
more than DEAR rules leaves out little, what it leaves out is decided first, by what follows in the list, and the
whole comes after it.
"""
import sys
from collections import namedtuple

from aclc_tools import boxes
from aclc_tools.lists import ACCEPT, DECIDING, DROP, GO, JUMP, PASS, REJECT, RETURN, CantSay, printable

MOST_RULES = 262144
MOST_STEPS = 1000000
MOST_DEPTH = 100
MOST_NESTED = 1000
# Calls that one level of nesting takes, with room to spare.
FRAMES = 10
DEAR = 256
# Userdata of a verdict.
VERDICT_DATA = {ACCEPT: 1, DROP: 2, REJECT: 3}
# What it means that a rule is left out which sends packets elsewhere.
TURNED = {RETURN: "; what it would return goes on here, so that later lines may decide the opposite",
          JUMP: "; what it would send to its chain goes on here, so that later lines may decide the opposite",
          GO: "; what it would send to its chain goes on here, so that later lines may decide the opposite"}
# What is left of a chain's box: some of it, nothing that isn't decided, or nothing that doesn't return.
SOME, NONE, BACK = "some", "none", "back"
# A rule's part in a chain, and the place of the next rule.
Step = namedtuple("Step", "rule part next")
# A place in a chain, and the place after the jump that led there.
Frame = namedtuple("Frame", "chain place caller")
# A rule that decides a box, unless one of the rules does that were left out before it and whose boxes hold it.
Decided = namedtuple("Decided", "rule box unless")


def steps_of(chain):
    """The parts of a chain's rules, in order."""
    steps = []
    for rule in chain.rules:
        following = len(steps) + max(1, len(rule.boxes))
        steps += [Step(rule, part, following) for part in rule.boxes or [None]]
    return steps


def check_jumps(chains):
    """Refuses jumps that lead back to where they came from, in chains that nothing leads to as well."""
    done, way = set(), []

    def visit(chain):
        """Follows the jumps of a chain."""
        way.append(chain)
        for rule in chains[chain].rules:
            if rule.verdict in (JUMP, GO) and rule.target in chains:
                if rule.target in way:
                    raise CantSay(f"the jump leads back to chain {rule.target}", rule.number, rule.text)
                if len(way) > MOST_DEPTH:
                    raise CantSay(f"chain {rule.target} is reached by more than {MOST_DEPTH} jumps", rule.number,
                                  rule.text)
                if rule.target not in done:
                    visit(rule.target)
        done.add(way.pop())

    for name in chains:
        if name not in done:
            visit(name)


class Flattener:
    """The rules of one chain and all that it leads to, as boxes in the order in which they decide."""

    def __init__(self, chains, lenient, end=None, tracks=False, beside=()):
        """With `end`, the verdict of a list's end that no rule says, that end is written too. If it tracks what is left
        out, each box that is decided has the rules that were left out and may decide it; `beside` may decide all."""
        self.chains, self.lenient, self.end, self.tracks = chains, lenient, end, tracks
        self.found, self.left_out, self.met = [], {}, {}
        # The rules that were left out on the way to here, and whose boxes hold what is followed.
        self.beside, self.unless = tuple(beside), list(beside) if tracks else []
        self.count = self.steps = self.depth = 0
        self.most, self.policy, self.start = MOST_RULES, None, None
        self.ways, self.idle_chains = {}, set()

    def list_of(self, name, families):
        """What each rule decides, in order."""
        policy, self.start = self.chains[name].policy, name
        if not policy:
            raise CantSay(f"chain {name} has no policy: packets come to it from other chains alone")
        self.policy = policy._replace(verdict=self.end) if policy.verdict == PASS and self.end else policy
        check_jumps(self.chains)
        self.ways = {chain.name: steps_of(chain) for chain in self.chains.values()}
        self.idle_chains = idle_chains(self.chains)
        sys.setrecursionlimit(max(sys.getrecursionlimit(), FRAMES * MOST_NESTED))
        for family in families:
            self.follow(Frame(name, 0, None), boxes.whole(family), True)
        return self.found

    def idle(self):
        """The rules that were met and decide nothing: they only log or count, or nothing is left for them."""
        deciding = {it.rule.number for it in self.found}
        return [rule for number, rule in sorted(self.met.items()) if number not in deciding
                and number not in self.left_out and rule.verdict in (*DECIDING, PASS)]

    def decide(self, box, rule):
        """Takes a box that a rule decides."""
        self.count += boxes.size(box)
        if self.count > self.most:
            raise CantSay(f"more than {MOST_RULES} rules would be needed", rule.number, rule.text)
        self.found.append(Decided(rule, box, tuple(self.unless)))

    def may_take(self, rule):
        """Whether a rule can be said; where that isn't asked for leniently, what can't be said ends the conversion."""
        self.met[rule.number] = rule
        if rule.reason and rule.verdict == JUMP and rule.target in self.idle_chains:
            return False
        if rule.reason and not self.lenient:
            raise CantSay(rule.reason, rule.number, rule.text)
        if rule.reason:
            self.left_out[rule.number] = rule
        return not rule.reason

    def follow(self, frame, box, to_end):
        """What decides the packets of a box from a place on: to the end of the last caller, or of this chain alone.

        Whether all of them are decided.
        """
        self.depth += 1
        if self.depth > MOST_NESTED:
            raise CantSay(f"jumps and returns nest more than {MOST_NESTED} times in chain {frame.chain}")
        length = len(self.unless)
        decided = self.walk(frame, box, to_end)
        del self.unless[length:]
        self.depth -= 1
        return decided

    def walk(self, frame, box, to_end):
        """The same, within the limit."""
        steps = self.ways[frame.chain]
        for place in range(frame.place, len(steps)):
            step = steps[place]
            self.steps += 1
            if self.steps > MOST_STEPS:
                raise CantSay("the chains lead to too many ways", step.rule.number, step.rule.text)
            if not self.may_take(step.rule):
                left = self.pass_over(step, frame, box, to_end)
            else:
                met = step.part and boxes.meet(box, step.part)
                left = self.take(step.rule, met, (frame, place), box, to_end) if met else SOME
            if left != SOME:
                return left == NONE
        if to_end:
            self.leave(frame.caller, box)
        return to_end

    def pass_over(self, step, frame, box, to_end):
        """Goes on after a rule that is left out. What it may match is followed apart from the rest, if that is tracked."""
        if not self.tracks or step.rule.number not in self.left_out or any(it is step.rule for it in self.unless):
            return SOME
        met = boxes.meet(box, step.part) if step.part else box
        if met == box and to_end:
            self.unless.append(step.rule)
        elif met:
            length = len(self.unless)
            self.unless.append(step.rule)
            self.follow(frame._replace(place=step.next), met, True)
            del self.unless[length:]
            return NONE if met == box else SOME
        return SOME

    def take(self, rule, met, here, box, to_end):
        """What a rule does with a box that it matches; what is left of the chain's box after it."""
        if rule.verdict == PASS:
            return SOME
        frame, place = here
        after = frame._replace(place=self.ways[frame.chain][place].next)
        if boxes.size(met) > DEAR and self.policy.verdict != PASS:
            wider, holes = boxes.with_holes(met, box, DEAR)
            if holes and self.take_holes(rule, (wider, holes), (frame._replace(place=place + 1), after), met):
                return SOME
        return self.act(rule, met, after, box, to_end)

    def take_holes(self, rule, wide, ways, met):
        """Decides first what a wider box has too much, then that box; undone where the box itself takes fewer rules."""
        (wider, holes), (onward, after) = wide, ways
        before, length, depth = (self.count, self.most), len(self.found), self.depth
        passed = len(self.unless)
        self.most = min(self.most, self.count + boxes.size(met))
        try:
            for hole in holes:
                self.follow(onward, hole, True)
            self.act(rule, wider, after, wider, True)
        except CantSay:
            if self.count <= self.most or self.most == before[1]:
                raise
            (self.count, self.most), self.depth = before, depth
            del self.found[length:], self.unless[passed:]
            return False
        self.most = before[1]
        return True

    def act(self, rule, met, after, box, to_end):
        """Does what a rule says with a box; what is left of the chain's box after it."""
        left = NONE if met == box else SOME
        if rule.verdict in DECIDING:
            self.decide(met, rule)
        elif rule.verdict == JUMP:
            return left if self.follow(Frame(self.known(rule), 0, after), met, False) else SOME
        elif rule.verdict == GO:
            self.follow(Frame(self.known(rule), 0, after.caller), met, True)
        elif left == NONE and not to_end:
            # Where all packets of the box return, those that follow in the caller's own list decide.
            return BACK
        else:
            self.leave(after.caller, met)
        return left

    def leave(self, caller, box):
        """What decides after the end of a chain: the caller's next rules, or the policy of the first chain."""
        if caller:
            self.follow(caller, box, True)
        elif self.policy.verdict != PASS:
            self.decide(box, self.policy)

    def known(self, rule):
        """The chain that a rule leads to."""
        if rule.target not in self.chains:
            raise CantSay(f"there is no chain {rule.target}", rule.number, rule.text)
        return rule.target

    def dying(self):
        """The first of the last rules of each chain that decide nothing, where lines were left out."""
        deciding = {it.rule.number for it in self.found}
        for name in reached(self.chains, self.start) if self.left_out else ():
            last = None
            for rule in self.chains[name].rules:
                if rule.verdict in DECIDING and rule.boxes and not rule.reason:
                    last = None if rule.number in deciding else last or rule
            if last:
                yield last, name

    def notes(self):
        """What is told of the lines that were left out: number, text, and a sentence."""
        for _, rule in sorted(self.left_out.items()):
            yield rule.number, rule.text, f"left out: {rule.reason}{TURNED.get(rule.verdict, '')}"
        for rule, name in self.dying():
            yield (rule.number, rule.text, f"no packet is left for this rule and what follows it in chain {name}, "
                   "where the lines above are left out")


def reached(chains, name):
    """The names of the chains that a chain leads to, after its own."""
    found, waiting = {}, [name]
    while waiting:
        here = waiting.pop()
        if here not in found and here in chains:
            found[here] = True
            waiting += [rule.target for rule in reversed(chains[here].rules) if rule.verdict in (JUMP, GO)]
    return list(found)


def idle_chains(chains):
    """The names of the chains that decide nothing, nor lead to one that does: they only log, count and return.

    Where a rule leads isn't known if its target is no chain, as that of a map of verdicts that can't be read.
    """
    callers, waiting = {}, []
    for chain in chains.values():
        if any(rule.verdict in DECIDING or rule.verdict in (JUMP, GO) and rule.target not in chains
               for rule in chain.rules):
            waiting.append(chain.name)
        for rule in chain.rules:
            callers.setdefault(rule.target, set()).add(chain.name)
    deciding = set(waiting)
    while waiting:
        found = callers.get(waiting.pop(), set()) - deciding
        deciding |= found
        waiting += found
    return set(chains) - deciding


def write(flattener, head, what, data="line"):
    """The lines of a rule file: what decides, each rule's text before its lines."""
    yield from (f"# {line}" for line in head.split("\n"))
    for rule in (*flattener.beside, *(rule for _, rule in sorted(flattener.left_out.items()))):
        yield f"# left out, {rule.reason}: {what} {rule.number}: {printable(rule.text)}"
    for rule in flattener.idle():
        yield f"# decides nothing: {what} {rule.number}: {printable(rule.text)}"
    last = None
    for rule, box, _ in flattener.found:
        if (rule.number, rule.verdict) != last:
            yield f"# {what} {rule.number} ({rule.verdict}): {printable(rule.text)}"
        last = rule.number, rule.verdict
        userdata = {"line": rule.number, "verdict": VERDICT_DATA[rule.verdict]}.get(data, data)
        yield from boxes.lines(box, f"data={userdata}")
