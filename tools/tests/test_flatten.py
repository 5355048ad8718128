# SPDX-License-Identifier: BSD-3-Clause
"""Chains turned into rules: against a plain walk over the chains, with boxes that are dear, and at its limits."""
import random
import unittest

from aclc_tools import boxes, flatten, lists
from converting import decided, rules_of


def applies(box, fields):
    """Whether a packet is in a box."""
    family, source, destination, ports, protocol = fields
    values = source, destination, *ports, protocol
    return box.family == family and all(any(low <= value <= high for low, high in getattr(box, side))
                                        for side, value in zip(boxes.SIDES, values))


class Walk:
    """Chains as a firewall goes through them, one packet at a time."""

    def __init__(self, chains, fields):
        self.chains, self.fields = chains, fields

    def chain(self, name):
        """The number that decides, `return`, or None at the chain's end."""
        for rule in self.chains[name].rules:
            if not any(applies(box, self.fields) for box in rule.boxes) or rule.verdict == lists.PASS:
                continue
            if rule.verdict in lists.DECIDING:
                return rule.number
            if rule.verdict == lists.RETURN:
                return None
            found = self.chain(rule.target)
            if found is not None or rule.verdict == lists.GO:
                return found
        return None


def interval(draw, whole):
    """All numbers, a few, or all but a few."""
    low = draw.randrange(8)
    few = ((low, low + draw.randrange(3)),)
    return draw.choice([whole, few, boxes.minus(whole, few)])


def random_chains(draw):
    """Chains that jump to later ones, with rules over few addresses and ports."""
    chains, number = {}, 0
    for place in range(4):
        rules = []
        for _ in range(draw.randrange(1, 5)):
            number += 1
            whole = boxes.whole(4)
            box = whole._replace(source=interval(draw, whole.source), destination=interval(draw, whole.destination),
                                 source_ports=interval(draw, boxes.PORTS),
                                 protocols=draw.choice([((6, 6),), ((0, 5), (7, 255))]))
            verdict = draw.choice([lists.ACCEPT, lists.DROP, lists.RETURN, lists.JUMP, lists.JUMP, lists.GO,
                                   lists.PASS])
            target = draw.randrange(place + 1, 4) if place < 3 else None
            verdict = lists.DROP if target is None and verdict in (lists.JUMP, lists.GO) else verdict
            parts = [box, whole._replace(destination=((3, 5),))][:draw.randrange(1, 3)]
            rules.append(lists.Rule(number, "", parts, verdict, str(target), None))
        chains[str(place)] = lists.Chain(str(place), rules, lists.Rule(99, "", [], lists.DROP, None, None) if place == 0
                                         else None)
    return chains


def rules_for(chains, families=(4,), **given):
    """The rules of the chain 0, as they stand in a rule file."""
    flattener = flatten.Flattener(chains, False, **given)
    flattener.list_of("0", families)
    return rules_of("\n".join(flatten.write(flattener, "random", "line")))


def excluding(number, source, destination, verdict=lists.ACCEPT):
    """A rule of IPv6 for all but two hosts."""
    whole = boxes.whole(6)
    box = whole._replace(source=boxes.minus(whole.source, ((source, source),)),
                         destination=boxes.minus(whole.destination, ((destination, destination),)))
    return lists.Rule(number, "", [box], verdict, None, None)


class Flatten(unittest.TestCase):
    def setUp(self):
        """Keeps the limits, which tests change."""
        self.limits = flatten.DEAR, flatten.MOST_STEPS

    def tearDown(self):
        """Puts the limits back."""
        flatten.DEAR, flatten.MOST_STEPS = self.limits

    def test_a_list_of_chains_decides_as_the_chains_do(self):
        draw = random.Random(5)
        for place in range(120):
            flatten.DEAR = (1, 4, 30, 256)[place % 4]
            chains = random_chains(draw)
            rules = rules_for(chains)
            for _ in range(40):
                fields = 4, draw.randrange(12), draw.randrange(12), (draw.randrange(11), 0), draw.choice([6, 6, 17])
                walked = Walk(chains, fields).chain("0")
                self.assertEqual(decided(rules, fields), 99 if walked is None else walked)

    def test_two_excluded_hosts_do_not_multiply(self):
        policy = lists.Rule(99, "", [], lists.DROP, None, None)
        chains = {"0": lists.Chain("0", [excluding(number, 10 * number, 7 * number) for number in range(1, 6)], policy)}
        rules = rules_for(chains, (6,))
        self.assertLess(len(rules), 5000)
        draw = random.Random(8)
        for _ in range(400):
            fields = 6, draw.choice([10, 20, 30, 40, 50, 51]), draw.choice([7, 14, 21, 28, 35, 36]), (0, 0), 58
            walked = Walk(chains, fields).chain("0")
            self.assertEqual(decided(rules, fields), 99 if walked is None else walked)

    def test_a_list_without_an_end_takes_no_holes(self):
        nothing, flatten.DEAR = lists.Rule(0, "", [], lists.PASS, None, None), 1
        but = boxes.minus(boxes.whole(4).source, ((3, 3),))
        box = boxes.whole(4)._replace(source=but, destination=but)
        chains = {"0": lists.Chain("0", [lists.Rule(1, "", [box], lists.ACCEPT, None, None)], nothing)}
        rules = rules_for(chains)
        self.assertEqual([decided(rules, (4, source, destination, (0, 0), 6)) for source,
                          destination in ((3, 1), (1, 3), (1, 1))],
                         [None, None, 1])

    def test_an_unsaid_end_is_written_where_it_is_asked_for(self):
        chains = {"0": lists.Chain("0", [], lists.Rule(7, "", [], lists.PASS, None, None))}
        self.assertEqual(rules_for(chains), [])
        self.assertEqual([rule.userdata for rule in rules_for(chains, end=lists.DROP)], [7])

    def test_jumps_in_a_circle_and_too_many_ways_are_refused(self):
        jump = lambda number, target: lists.Rule(number, "", [boxes.whole(4)], lists.JUMP, target, None)
        policy = lists.Rule(99, "", [], lists.DROP, None, None)
        circle = {"0": lists.Chain("0", [jump(1, "1")], policy), "1": lists.Chain("1", [jump(2, "0"), jump(3, "0")],
                                                                                  None)}
        with self.assertRaises(lists.CantSay) as raised:
            rules_for(circle)
        self.assertEqual(raised.exception.number, 2)
        wide = {str(it): lists.Chain(str(it), [jump(it, str(it + 1))] * 2, policy) for it in range(40)}
        wide["40"] = lists.Chain("40", [], None)
        flatten.MOST_STEPS = 5000
        with self.assertRaises(lists.CantSay) as raised:
            rules_for(wide)
        self.assertIn("too many ways", raised.exception.reason)

    def test_returns_that_nest_too_deeply_are_refused(self):
        chains = {"0": lists.Chain("0", [], lists.Rule(99999, "", [], lists.DROP, None, None))}
        for place in range(1, 1500):
            part = boxes.whole(4)._replace(source_ports=((place, 65535),))
            chains["0"].rules.append(lists.Rule(place, "", [boxes.whole(4)], lists.JUMP, str(place), None))
            chains[str(place)] = lists.Chain(str(place),
                                             [lists.Rule(2000 + place, "", [part], lists.RETURN, None, None)], None)
        with self.assertRaises(lists.CantSay) as raised:
            rules_for(chains)
        self.assertIn("nest more than", raised.exception.reason)

    def test_boxes_are_covered_exactly(self):
        draw = random.Random(6)
        for _ in range(60):
            low, high = sorted(draw.choices([0, 1, 5, 2**31, 2**32 - 2, 2**32 - 1, draw.getrandbits(32)], k=2))
            found = sorted((first, first + (1 << 32 - length) - 1) for first, length in boxes.prefixes(low, high, 32))
            self.assertEqual(boxes.union(found), ((low, high),))
            protocols = boxes.union([(it, it) for it in draw.sample(range(256), draw.randrange(1, 200))])
            pairs = list(boxes.masks(protocols))
            covered = boxes.union([(it, it) for it in range(256) for value, mask in pairs if it & mask == value])
            self.assertEqual(covered, protocols)


if __name__ == "__main__":
    unittest.main()
