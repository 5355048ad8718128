# SPDX-License-Identifier: BSD-3-Clause
"""Lists with one line damaged, each converted without loss or refused.

FORMS is the registry: each form has a module `draws_NAME` with a function `draw(draw)`, which gives a Drawn. Its
`judge` reads a text with none of the converter's code, and gives what has a method `decides(fields)`: the number that
decides a packet. It raises what `unlawful` names where the text is no lawful list.
"""
import random
import re
import tempfile
from collections import Counter
from pathlib import Path

import draws_iptables
import draws_nft
import packets
from aclc_tools import capture, forms, lists, program, rule_file
from converting import decided

FORMS = {"iptables": draws_iptables, "nft": draws_nft}
LETTERS = "abcdefghijklmnopqrstuvwxyz0123456789-:./!_,\"ACDEJRT"


def changed(draw, lines, at):
    """A word, or a number, of a line becomes one of another line."""
    words, others = re.split(r"(\W+)", lines[at]), re.split(r"\W+", draw.choice(lines))
    words[2 * draw.randrange((len(words) + 1) // 2)] = draw.choice(others)
    return lines[:at] + ["".join(words)] + lines[at + 1:]


def swapped(draw, lines, at):
    """Two words of a line change places."""
    words = lines[at].split(" ")
    one, other = draw.randrange(len(words)), draw.randrange(len(words))
    words[one], words[other] = words[other], words[one]
    return lines[:at] + [" ".join(words)] + lines[at + 1:]


def removed(draw, lines, at):
    """A line is left out."""
    return lines[:at] + lines[at + 1:]


def doubled(draw, lines, at):
    """A line stands twice."""
    place = draw.randrange(len(lines) + 1)
    return lines[:place] + [lines[at]] + lines[place:]


def misspelled(draw, lines, at):
    """A letter is left out, put in, or another one."""
    line, place = lines[at], draw.randrange(len(lines[at]) + 1)
    spelled = line[:place] + draw.choice(["", draw.choice(LETTERS)]) + line[place + draw.randrange(2):]
    return lines[:at] + [spelled] + lines[at + 1:]


def cut(draw, lines, at):
    """A word of a line is left out, or all that follows it."""
    words = lines[at].split(" ")
    place = draw.randrange(len(words))
    return lines[:at] + [" ".join(words[:place] + draw.choice([[], words[place + 1:]]))] + lines[at + 1:]


def moved(draw, lines, at):
    """A line stands elsewhere."""
    rest = lines[:at] + lines[at + 1:]
    place = draw.randrange(len(rest) + 1)
    return rest[:place] + [lines[at]] + rest[place:]


DAMAGES = (changed, changed, swapped, removed, doubled, misspelled, misspelled, cut, moved)


def damaged(draw, lines):
    """The lines with one of them damaged."""
    return draw.choice(DAMAGES)(draw, lines, draw.randrange(len(lines)))


def judged(drawn, text, count, draw):
    """What became of a list: `refused`, `converted`, or a sentence that tells a fault."""
    try:
        done = forms.converted(drawn.options, text)
    except lists.CantSay as said:
        return "refused" if re.search(r"\w .*\w", said.reason) else f"its reason is no sentence: {said.reason}"
    rules, faults = rule_file.read_rules("\n".join(done.lines).encode())
    if faults:
        return f"the rule file has a fault: {faults[0].kind}"
    try:
        judge = drawn.judge(text)
        for fields in fields_near(rules, count, draw):
            wanted, found = judge.decides(fields), decided(rules, fields)
            if (wanted or 0) != (found or 0):
                return f"packet {fields}: the list decides by {wanted}, and the rule file says {found}"
    except drawn.unlawful as error:
        return f"it isn't lawful, and was converted: {error}"
    return "converted"


def fields_near(rules, count, draw):
    """Packets near the rules; those without ports have 0."""
    for family, source, destination, ports, protocol in packets.draw_fields(rules, count,
                                                                            draw.random()) if rules else ():
        yield family, source, destination, tuple(ports) if protocol in (6, 17, 132) else (0, 0), protocol


def by_program(form, count, seed):
    """Each packet of so many lists that the program answers in another way than the list's own judge, and the count."""
    draw, wrong, asked = random.Random(seed), [], 0
    for _ in range(count):
        drawn = FORMS[form].draw(draw)
        text = drawn.join(drawn.lines)
        judge, lines = drawn.judge(text), forms.converted(drawn.options, text).lines
        rules = ("\n".join(lines) + "\n").encode()
        near = list(fields_near(rule_file.read_rules(rules)[0], 50, draw))
        frames = [packets.ethernet(packets.packet(*fields, number)) for number, fields in enumerate(near)]
        for fields, answer in zip(near, answers(rules, frames)):
            asked += 1
            if (judge.decides(fields) or 0) != answer:
                wrong.append((fields, judge.decides(fields), answer, text))
    return wrong, asked


def answers(rules, frames):
    """The userdata that the program prints for each frame."""
    with tempfile.TemporaryDirectory() as folder:
        names = Path(folder) / "list.rules", Path(folder) / "sent.pcap"
        names[0].write_bytes(rules)
        names[1].write_bytes(capture.write(frames))
        done = program.run("classify", *names, path=program.built_program())
    return [int(line.split()[2]) for line in done.lines.decode().split("\n")[:len(frames)]]


def run(form, count, seed, near=12):
    """Counts of what became of so many damaged lists, and each fault with its list."""
    draw, counts, faults = random.Random(seed), Counter(), []
    for place in range(count):
        drawn = FORMS[form].draw(draw)
        text = drawn.join(damaged(draw, drawn.lines) if place % 10 else drawn.lines)
        found = judged(drawn, text, near, draw)
        counts[found if found in ("refused", "converted") else "fault"] += 1
        if found not in ("refused", "converted"):
            faults.append((found, text))
        if not place % 10 and found == "refused":
            faults.append(("a list without damage is refused", text))
    return counts, faults
