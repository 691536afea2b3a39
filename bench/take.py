"""For bench/python: the time that one message takes through the package, as bench/take.c has it for C: take.py RESTING."""

import sys
import time

from kamurjesh import Market, Taken, message

ORDER = (
    "35=D|34=1|49=P|52=20261116-09:00:00|56=V|11=o%d|21=1|38=100|40=2|44=%s|47=A|54=%d|55=350|59=%d|60=20261116-09:00:00|109=10|8060=1"
)


def main() -> None:
    resting = int(sys.argv[1])
    market = Market("V", "P", "350", {10: "cancel-newest"})
    for name in range(resting):
        market.take(message(ORDER % (name, "0.100", 2, 0)))
    best, name = 1e9, resting
    for _ in range(9):
        messages = [message(ORDER % (name + i, "0.200", 1, 3)) for i in range(2000)]
        name += len(messages)
        began = time.perf_counter()
        answers = [market.take(one) for one in messages]
        best = min(best, (time.perf_counter() - began) / len(messages))
        assert all(isinstance(answer, Taken) for answer in answers)
    print(f"{best * 1e6:.2f}")


main()
