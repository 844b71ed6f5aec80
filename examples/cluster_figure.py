#!/usr/bin/env python3
"""Draws what N nodes take for many matters, of measured pages a second of one node: cluster.svg beside this file, or what is compared with
it by the word `check`. With a folder of examples/cluster.sh it prints first what its matters took there.

The matters are 300, of 200 to 20,000 pages, each size as much as another by its logarithm; a node takes one matter after another, the largest
first. 5.4 ms a page is what bench/README.md has of letter pages on one machine of four processors with little beside: 2.1 to import, 1.1 to
press, 1.1 to check, and 1.1 for four openings of 43 KB a page; decisions are people's time and aren't in it. That two nodes hold up each other
nowhere is so where each has a disk of its own, and is an estimate where they share one.

    cluster_figure.py [check | FOLDER]
"""
import heapq
import math
import os
import re
import sys

HERE = os.path.dirname(os.path.abspath(__file__))
MILLISECONDS = 5.4  # a page, by bench/README.md
MATTERS, LEAST, MOST = 300, 200, 20000
NODES = (1, 2, 4, 8, 16, 32, 64, 128, 256)
WIDTH, HEIGHT, LEFT, TOP, RIGHT, BOTTOM = 640, 360, 70, 70, 20, 50
STYLE = """svg { font: 13px "DejaVu Sans", Verdana, sans-serif }
.ground { fill: #ffffff } .text { fill: #1c1c1a } .soft { fill: #5a5a56 } .grid { stroke: #d4d4d0 }
.mark { fill: #0b4f8f } .line { stroke: #0b4f8f; fill: none } .head { font-weight: bold }
@media (prefers-color-scheme: dark) {
  .ground { fill: #16181c } .text { fill: #ececea } .soft { fill: #b4b4b0 } .grid { stroke: #3c3f45 }
  .mark { fill: #7cb8f0 } .line { stroke: #7cb8f0 }
}"""


def sizes():
    return [round(LEAST * (MOST / LEAST) ** (at / (MATTERS - 1))) for at in range(MATTERS)]


def minutes(pages, nodes):
    """How long it takes until the last node is done."""
    ends = [0.0] * nodes
    for size in sorted(pages, reverse=True):
        heapq.heappush(ends, heapq.heappop(ends) + size * MILLISECONDS / 60000)
    return max(ends)


def place(nodes, told, most):
    across = LEFT + (WIDTH - LEFT - RIGHT) * math.log(nodes) / math.log(NODES[-1])
    down = TOP + (HEIGHT - TOP - BOTTOM) * (1 - math.log(told / 1) / math.log(most / 1))
    return across, down


def drawn():
    pages = sizes()
    points = [(nodes, minutes(pages, nodes)) for nodes in NODES]
    most, bound = 200, max(pages) * MILLISECONDS / 60000
    parts = [f'<svg xmlns="http://www.w3.org/2000/svg" viewBox="0 0 {WIDTH} {HEIGHT}" role="img">', f"<style>{STYLE}</style>",
             f'<rect class="ground" width="{WIDTH}" height="{HEIGHT}" rx="6"/>',
             f'<text class="text head" x="16" y="26">Minutes for {MATTERS} matters, {sum(pages):,} pages, by nodes</text>',
             f'<text class="soft" x="16" y="46">reckoned of {MILLISECONDS} ms a page; the largest matter alone takes {bound:.1f} minutes</text>']
    for told in (1, 2, 5, 10, 20, 50, 100, 200):
        _, down = place(1, told, most)
        parts.append(f'<path class="grid" d="M{LEFT} {down:.1f}H{WIDTH - RIGHT}"/><text class="soft" x="{LEFT - 8}" y="{down + 4:.1f}" text-anchor="end">{told}</text>')
    for nodes in NODES:
        across, _ = place(nodes, 1, most)
        parts.append(f'<text class="soft" x="{across:.1f}" y="{HEIGHT - BOTTOM + 20}" text-anchor="middle">{nodes}</text>')
    parts.append(f'<text class="soft" x="{(LEFT + WIDTH) / 2:.0f}" y="{HEIGHT - 12}" text-anchor="middle">nodes</text>')
    path = "".join(f"{'L' if at else 'M'}{place(*point, most)[0]:.1f} {place(*point, most)[1]:.1f}" for at, point in enumerate(points))
    parts.append(f'<path class="line" stroke-width="2" d="{path}"/>')
    parts += [f'<circle class="mark" cx="{place(*point, most)[0]:.1f}" cy="{place(*point, most)[1]:.1f}" r="3.5"/>' for point in points]
    return "\n".join([*parts, "</svg>"]) + "\n"


def measured(folder):
    """What the matters of a folder took: pages, seconds, and pages a second."""
    for name in sorted(os.listdir(folder)):
        if name.endswith(".result"):
            with open(os.path.join(folder, name), encoding="utf-8") as file:
                told = file.read()
            pages = re.search(r"pages=(\d+)", told)
            took = sum(int(each) for each in re.findall(r"(?:init|import|decide|produce|check)=(\d+)", told))
            if told.startswith("done:") and pages:
                print(f"{name.removesuffix('.result')}: {pages[1]} pages, {took} s, {int(pages[1]) / max(took, 1):.0f} a second")


def main(words):
    path, text = os.path.join(HERE, "cluster.svg"), drawn()
    if words == ["check"]:
        with open(path, encoding="utf-8") as file:
            sys.exit(0 if file.read() == text else "cluster_figure.py: cluster.svg isn't what would be drawn")
    if words:
        measured(words[0])
        return
    with open(path, "w", encoding="utf-8") as file:
        file.write(text)
    print(*(f"{nodes} nodes: {minutes(sizes(), nodes):.1f} minutes" for nodes in NODES), sep="\n")


main(sys.argv[1:])
