"""Draws the depth that a file of messages leaves, one a line with | for SOH, into a picture. It needs matplotlib.

    python3 examples/python/depth.py examples/book/book-r.txt depth.png
"""

import sys
from pathlib import Path

from kamurjesh import Market, Refused


def main(words: list) -> int:
    if len(words) != 2:
        print("usage: depth.py MESSAGES PICTURE", file=sys.stderr)
        return 2
    try:
        import matplotlib

        matplotlib.use("Agg")
        from matplotlib import pyplot
    except ImportError:
        print("depth.py: matplotlib is not installed; pip install matplotlib, or python3-matplotlib of Debian", file=sys.stderr)
        return 2
    market = Market("V", "P", "350", {mpid: "cancel-newest" for mpid in range(10, 15)})
    for line in Path(words[0]).read_bytes().splitlines():
        try:
            market.take(line.replace(b"|", b"\x01"))
        except Refused:
            continue
    figure, axes = pyplot.subplots(figsize=(8, 4))
    for side, colour in (("buy", "tab:blue"), ("sell", "tab:red")):
        levels = market.depth(side)
        bars = axes.barh([str(level.quote) for level in levels], [level.quantity for level in levels], color=colour, label=side)
        axes.bar_label(bars, [f"{level.quantity:,}  ({level.orders})" for level in levels], padding=4)
    axes.set_xlabel("open quantity (orders)")
    axes.set_ylabel("yield")
    axes.margins(x=0.2)
    axes.legend()
    figure.tight_layout()
    figure.savefig(words[1])
    return 0


if __name__ == "__main__":
    sys.exit(main(sys.argv[1:]))
