"""The commands of tests/vectors, answered through the package: one answer a line, as tests/vectors/README.md tells them.

    python3 tests/python/transcript.py < tests/vectors/commands > answers
"""

import re
import sys
from typing import Callable, Dict, Iterable, Iterator, List

from kamurjesh import calls

IMAGE_KEPT = calls.IMAGE_BYTES + 1


def unescape(text: str) -> bytes:
    """A text of a command as bytes."""
    return re.sub(rb"\\x([0-9a-f]{2})|\|", lambda one: bytes([int(one[1], 16)]) if one[1] else b"\x01", text.encode("ascii"))


def escape(data: bytes) -> str:
    """Bytes as the text of an answer."""

    def shown(byte: int) -> str:
        if byte == 1:
            return "|"
        return chr(byte) if 0x20 <= byte <= 0x7E and chr(byte) not in "|;\\" else f"\\x{byte:02x}"

    return "".join(map(shown, data))


class Player:
    """What the commands work on: a table, an image that is kept, and whose calls are made."""

    def __init__(self) -> None:
        self.equities = False
        self.table = bytearray(calls.TABLE_BYTES)
        self.image = bytearray(IMAGE_KEPT)
        self.does: Dict[str, Callable[[str], str]] = {name: getattr(self, name) for name in "qosrldtbxcywui"}

    def answer(self, line: str) -> str:
        if line.startswith("#"):
            return line
        return f"{line[0]} {self.does[line[0]](line[2:])}"

    @staticmethod
    def written(numbers: Iterable[int], area: bytearray, length: int) -> str:
        told = " ".join(map(str, numbers))
        return f"{told} {escape(area[:length])}" if length else told

    def q(self, text: str) -> str:
        self.equities = text == "1"
        return text

    def o(self, text: str) -> str:
        venue, port, code, first, *members = text.split(";")
        pairs = [tuple(map(int, member.split(":"))) for member in members if member]
        table = bytearray(calls.TABLE_BYTES)
        ids = [unescape(one) for one in (venue, port, code)]
        number = calls.open_market(table, *ids, int(first), [m for m, _ in pairs], [mode for _, mode in pairs], self.equities)
        if number == 0:
            self.table = table
        return str(number)

    def s(self, text: str) -> str:
        length, _, message = text.partition(";")
        area = bytearray(int(length))
        answer = calls.submit(self.table, unescape(message), area, self.equities)
        return self.written(answer, area, answer.length)

    def r(self, text: str) -> str:
        length, budget = text.split(";")
        area = bytearray(int(length))
        answer = calls.run(self.table, area, int(budget), self.equities)
        return self.written(answer, area, answer.length)

    def l(self, text: str) -> str:
        length, _, buffer = text.partition(";")
        area = bytearray(int(length))
        answer = calls.load(self.table, unescape(buffer), area, self.equities)
        return self.written(answer, area, answer.length)

    def d(self, text: str) -> str:
        side, k = map(int, text.split(";"))
        return " ".join(map(str, calls.depth(self.table, side, k, self.equities)))

    def t(self, text: str) -> str:
        return " ".join(map(str, calls.top(self.table, int(text), self.equities)))

    @staticmethod
    def put(data: bytearray, text: str) -> str:
        place, byte = map(int, text.split(";"))
        before = data[place]
        data[place] = byte
        return str(before)

    def b(self, text: str) -> str:
        return self.put(self.table, text)

    def i(self, text: str) -> str:
        return self.put(self.image, text)

    @staticmethod
    def fields(report: bytes, answer: calls.Told) -> str:
        told = f"{answer.number} {answer.value}"
        return f"{told} {''.join(field + ';' for field in escape(report).split('|')[:-1])}" if answer.number == 0 else told

    def x(self, text: str) -> str:
        report = unescape(text)
        return self.fields(report, calls.read(report, self.equities))

    def y(self, text: str) -> str:
        report = unescape(text)
        return self.fields(report, calls.copy_read(report, self.equities))

    def c(self, text: str) -> str:
        subscription, shows, port, group, following, length, report = text.split(";", 6)
        area = bytearray(int(length))
        answer = calls.copy(
            unescape(report), int(subscription), int(shows), unescape(port), unescape(group), int(following), area, self.equities
        )
        return self.written(answer, area, answer.length)

    def w(self, text: str) -> str:
        table, image = map(int, text.split(";"))
        part = bytearray(self.image[:image])
        number = calls.save(bytes(self.table[:table]), part, self.equities)
        self.image[:image] = part
        if number:
            return str(number)
        checks = (int.from_bytes(self.image[at + 508 : at + 512], "little") for at in range(0, calls.IMAGE_BYTES, 512))
        return " ".join(map(str, [number, *checks]))

    def u(self, text: str) -> str:
        table, image = map(int, text.split(";"))
        part = bytearray(self.table[:table])
        answer = calls.restore(part, bytes(self.image[:image]), self.equities)
        self.table[:table] = part
        return f"{answer.number} {answer.value}"


def answers(lines: Iterable[str]) -> Iterator[str]:
    player = Player()
    return (player.answer(line) for line in lines)


def main() -> None:
    out: List[str] = list(answers(sys.stdin.read().splitlines()))
    sys.stdout.write("".join(line + "\n" for line in out))


if __name__ == "__main__":
    main()
