#!/usr/bin/env python3
"""Whether a picture that `./rehearse --chart` draws shows the depth that it prints.

    tests/readers/chart.py PICTURE < REHEARSED

REHEARSED is what ./rehearse wrote beside the picture, and ends with the depth. Says nothing where all is well, and else what is not,
with exit status 1: a bar for each level, by yield or price with the buys above and the best in the middle, its length in the ratio of
the totals and the longest as long as there is room for; its yield or price, total and number of orders in figures in the same row; rows
apart from each other and inside the picture; colours that can be read on white and on black, and no background.
"""
import sys
import xml.etree.ElementTree as xml

SVG = "{http://www.w3.org/2000/svg}"
LONGEST = 480
HEADING = "side {} quantity orders\n"
SENSES = {"yield": -1, "price": 1}
LETTER = 7.3  # a monospace letter of 12 pixels is not wider


def require(holds, what):
    if not holds:
        sys.exit(f"chart: {what}")


def levels(rehearsed):
    """Side, quote, total and orders of each level, from the top: by falling yield, or by rising price."""
    heading, sense = next((line, sense) for line in rehearsed for name, sense in SENSES.items() if line == HEADING.format(name))
    lines = rehearsed[rehearsed.index(heading) + 1 :]
    found = [(side, at, int(total), int(orders)) for side, at, total, orders in map(str.split, lines)]
    return sorted(found, key=lambda level: sense * float(level[1]))


def bars(root):
    """Top, height, length and colour of each bar, from the top. All start at one place, and lengths are in pixels."""
    require(not any(part.get("transform") for part in root.iter()), "lengths are scaled, which browsers do within limits alone")
    drawn = [(bar, group.get("fill")) for group in root.iter(SVG + "g") for bar in group]
    require(len(list(root.iter(SVG + "rect"))) == len(drawn), "there is a background")
    require(len({bar.get("x") for bar, _ in drawn}) <= 1, "the bars do not start at one place")
    return sorted((float(bar.get("y")), float(bar.get("height")), float(bar.get("width")), fill) for bar, fill in drawn)


def rows(root, width):
    """The texts of each row by the height of their letters."""
    found = {}
    for text in root.iter(SVG + "text"):
        x, room = float(text.get("x")), LETTER * len(text.text)
        start = x - room if text.get("text-anchor") == "end" else x
        require(start >= 0 and start + room <= width, f"{text.text} is not inside")
        found.setdefault(float(text.get("y")), []).append(text.text)
    return found


def contrasts(colour):
    """The contrast of a colour with white and with black."""
    parts = [int(colour[at : at + 2], 16) / 255 for at in (1, 3, 5)]
    linear = [part / 12.92 if part <= 0.04045 else ((part + 0.055) / 1.055) ** 2.4 for part in parts]
    luminance = 0.2126 * linear[0] + 0.7152 * linear[1] + 0.0722 * linear[2]
    return 1.05 / (luminance + 0.05), (luminance + 0.05) / 0.05


def main():
    root = xml.parse(sys.argv[1]).getroot()
    expected, drawn = levels(sys.stdin.readlines()), bars(root)
    _, _, width, height = map(float, root.get("viewBox").split())
    texts = rows(root, width)
    require(len(drawn) == len(expected), f"{len(drawn)} bars for {len(expected)} levels")
    largest = max((total for _, _, total, _ in expected), default=1)
    for (side, at, total, orders), (top, tall, length, _) in zip(expected, drawn):
        require(abs(length / LONGEST - total / largest) <= 1e-9 * total / largest, f"the bar of {at} is {length} long")
        here = [words for y, words in texts.items() if top < y < top + tall]
        figures = f"{total} in {orders} order" + ("" if orders == 1 else "s")
        require(here == [[at, figures]], f"beside the bar of {at} stands {here}")
    require(all(one[0] + one[1] < other[0] for one, other in zip(drawn, drawn[1:])), "bars touch each other")
    require(all(0 <= top and top + tall <= height for top, tall, _, _ in drawn), "a bar is not inside")
    require(all(y + 3 <= height for y in texts), "a text is not inside")
    painted = {(side, bar[3]) for (side, *_), bar in zip(expected, drawn)}
    sides, paints = {side for side, _ in painted}, {paint for _, paint in painted}
    require(len(painted) == len(sides) == len(paints), "a side does not have a colour of its own")
    colours = {part.get(name) for part in root.iter() for name in ("fill", "stroke")} - {None}
    for colour in colours:
        require(min(contrasts(colour)) >= 4.5, f"{colour} cannot be read on white and on black")


if __name__ == "__main__":
    main()
