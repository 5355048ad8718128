# SPDX-License-Identifier: BSD-3-Clause
"""All pairs of lines that decide packets differently, as text, as JSON and as a table."""
from aclc_tools import regions, two_lists
from aclc_tools.all_pairs import MOST_BOXES
from aclc_tools.packet_words import words_of
from aclc_tools.printing import numbers_text, print_csv, print_json

OPEN = "lines were left out that may decide otherwise in one list"


def of_family(pairs, family):
    """What is told of a family in a line."""
    count = sum(it.pair.family == family for it in pairs.told)
    rest = f", except packets that {two_lists.words_of_excepted(pairs.excepted)}" if pairs.excepted else ""
    if not count:
        unknown = f"couldn't tell: {OPEN}" if family in pairs.open else "couldn't tell all" if pairs.unknown else ""
        return f"IPv{family}: {unknown or 'the same' + rest}"
    lines = "1 pair of lines gives" if count == 1 else f"{count} pairs of lines give"
    said = f"IPv{family}: {lines} packets another answer{rest}"
    return said + (f"; not all may be told: {OPEN}" if family in pairs.open else
                   "; not all may be told" if pairs.unknown else "")


def print_text(pairs, said):
    """The excepted lines first, and each family with its pairs."""
    two_lists.print_excepted(pairs.excepted)
    with_categories = any(its.has_categories for its in pairs.two.lists)
    for family in (4, 6):
        print(of_family(pairs, family))
        for it in (it for it in pairs.told if it.pair.family == family):
            pairs.two.print_sides(pairs.row(it))
            for box in it.boxes[:MOST_BOXES]:
                print(f"    {regions.words(family, box)}")
            if len(it.boxes) > MOST_BOXES:
                print(f"    and {len(it.boxes) - MOST_BOXES} more boxes of packets")
            where = f", {numbers_text(it.pair.categories)}" if with_categories else ""
            print(f"    as {words_of(it.key)}{where}")
    if said:
        print(said)
    for listed in pairs.two.lists:
        listed.print_left_out()


def print_as_json(pairs, said):
    """Each pair as an object. Where lines are excepted, there is no `same`, and `same_except_these` in its place."""
    names = ["family", "packet", "categories", *(it for it in two_lists.COLUMNS if it != "category")]
    told = []
    for it in pairs.told:
        row = pairs.row(it)
        told.append({**{name: row[name] for name in names}, "not_decided": it.pair.is_open,
                     "boxes": [regions.values(it.pair.family, box) for box in it.boxes[:MOST_BOXES]],
                     "more_boxes": max(0, len(it.boxes) - MOST_BOXES)})
    excepted = two_lists.told_excepted(pairs.excepted)
    same = not told and pairs.is_told()
    first = {"except": excepted, "same_except_these": same} if excepted else {"same": same}
    print_json({**first, "data": pairs.two.data, "pairs": told, "all_told": pairs.is_told(), "unknown": pairs.unknown,
                "couldnt_tell": [f"ip{family}" for family in sorted(pairs.open)], "remark": said,
                "left_out": pairs.two.told_left_out()})


def print_as_csv(pairs, _):
    """A row for each box that is told; each pair has its number, and how many boxes more it has."""
    sides, rows = ["protocols", *regions.SIDES], []
    for number, it in enumerate(pairs.told, 1):
        row = {**pairs.row(it), "pair": number, "more_boxes": max(0, len(it.boxes) - MOST_BOXES),
               "categories": " ".join(map(str, it.pair.categories)),
               "except": " ".join(str(entry.number) for entry in pairs.excepted)}
        for box in it.boxes[:MOST_BOXES]:
            values = regions.values(it.pair.family, box)
            rows.append({**row, "protocols": " ".join("-".join(map(str, two)) for two in values["protocols"]),
                         **{side: "-".join(map(str, values[side])) for side in regions.SIDES}})
    columns = ["pair", "family", "packet", "categories", *(it for it in two_lists.COLUMNS if it != "category"), *sides,
               "more_boxes"]
    print_csv(columns + ["except"] * bool(pairs.excepted), rows, pairs.two.told_left_out())
