"""Draws the groups of crates.txt: python3 scripts/figure.py < crates.txt > docs/groups.svg

A box for each group, with its crates, and the lower the fewer groups are below it. An arrow leads from a group to one that stands on it; where
that follows from other arrows it is left out. Groups on the longest way up stand in the middle, others beside them.
"""

import re
import sys
import textwrap

WIDTH, LINE, HEAD, GAP, ASIDE = 300, 13, 22, 34, 40
STYLE = """
    text { font: 10px monospace; fill: #1f2328; }
    text.name { font: bold 13px sans-serif; }
    rect { fill: #f6f8fa; stroke: #57606a; }
    path { fill: none; stroke: #7d8590; stroke-width: 1.5; marker-end: url(#tip); }
    #tip path { fill: #7d8590; stroke: none; marker-end: none; }
    @media (prefers-color-scheme: dark) {
      text { fill: #e6edf3; }
      rect { fill: #161b22; stroke: #8b949e; }
    }
"""


def groups_of(text):
    """The groups in order, each with its crates, and the group of each crate with the crates below it."""
    groups, lines = {}, []
    for line in text.splitlines():
        heading = re.match(r"# ([A-Za-z ]+): ", line)
        row = re.match(r"(\w+) *:([\w ]*)", line)
        if heading:
            groups[heading[1]] = []
        elif row and groups:
            group = list(groups)[-1]
            groups[group].append(row[1])
            lines.append((group, row[2].split()))
    return groups, lines


def edges_of(groups, lines):
    """The pairs of a group and one that it stands on, but for those that follow from others."""
    home = {crate: group for group, crates in groups.items() for crate in crates}
    below = {group: set() for group in groups}
    for group, names in lines:
        below[group] |= {home[it] for it in names if it in home and home[it] != group}
    order = list(groups)
    for group in order:
        for it in below[group]:
            if order.index(it) > order.index(group):
                raise SystemExit(f"figure.py: {group} stands on {it}, which comes after it")
    whole = {}
    for group in order:
        whole[group] = below[group].union(*(whole[it] for it in below[group]))
    return [(it, group) for group in order for it in order if it in below[group] and not any(it in whole[other] for other in below[group])]


def places_of(order, edges):
    """The row and the column of each group: a row above all that it stands on, and column 0 on the longest way up."""
    rows = {}
    for group in order:
        rows[group] = max([rows[low] + 1 for low, high in edges if high == group], default=0)
    middle, at = set(), max(order, key=lambda it: rows[it])
    while at:
        middle.add(at)
        at = next((low for low, high in edges if high == at and rows[low] == rows[at] - 1), None)
    columns, taken = dict.fromkeys(middle, 0), set()
    for group in order:
        if group not in middle:
            # (an arrow goes up in the column of its group)
            used = range(rows[group], max([rows[high] for low, high in edges if low == group], default=rows[group] + 1))
            columns[group] = next(it for it in (-1, 1, -2, 2, -3, 3) if not any((it, row) in taken for row in used))
            taken |= {(columns[group], row) for row in used}
    return rows, columns


def drawing(groups, edges):
    rows, columns = places_of(list(groups), edges)
    texts = {group: textwrap.wrap(" ".join(crates), 46) for group, crates in groups.items()}
    heights = [max(HEAD + LINE * len(texts[it]) + 8 for it in groups if rows[it] == row) for row in range(max(rows.values()) + 1)]
    bottoms = [10 + sum(heights[row:]) + GAP * (len(heights) - 1 - row) for row in range(len(heights))]
    first = min(columns.values())
    left = {group: 10 + (columns[group] - first) * (WIDTH + ASIDE) for group in groups}
    width, height = 20 + (max(columns.values()) - first) * (WIDTH + ASIDE) + WIDTH, bottoms[0] + 10
    yield f'<svg xmlns="http://www.w3.org/2000/svg" viewBox="0 0 {width} {height}" width="{width}" height="{height}">'
    yield "  <title>The groups of crates, and which stands on which</title>"
    yield f"  <style>{STYLE}  </style>"
    yield '  <defs><marker id="tip" viewBox="0 0 8 8" refX="8" refY="4" markerWidth="6" markerHeight="6" orient="auto"><path d="M0 0 L8 4 L0 8 z"/></marker></defs>'
    for low, high in edges:
        others = sorted({it for lower, it in edges if lower == low}, key=lambda it: left[it])
        under = sorted({lower for lower, it in edges if it == high}, key=lambda it: left[it])
        x = left[low] + WIDTH * (others.index(high) + 1) // (len(others) + 1)
        to = left[high] + WIDTH * (under.index(low) + 1) // (len(under) + 1)
        top, end = bottoms[rows[low]] - heights[rows[low]], bottoms[rows[high]]
        yield f'  <path d="M{x} {top} V{end + GAP} L{to} {end}"/>'
    for group, crates in groups.items():
        top = bottoms[rows[group]] - heights[rows[group]]
        yield f'  <rect x="{left[group]}" y="{top}" width="{WIDTH}" height="{heights[rows[group]]}" rx="6"/>'
        yield f'  <text class="name" x="{left[group] + 12}" y="{top + 17}">{group[0].upper() + group[1:]}</text>'
        for number, line in enumerate(texts[group]):
            yield f'  <text x="{left[group] + 12}" y="{top + HEAD + 10 + LINE * number}">{line}</text>'
    yield "</svg>"


def main():
    groups, lines = groups_of(sys.stdin.read())
    if not groups:
        raise SystemExit("figure.py: no heading '# GROUP: ..' is given")
    print("\n".join(drawing(groups, edges_of(groups, lines))))


if __name__ == "__main__":
    main()
