"""The package says what the header says, and answers what the second program answers."""

import re

from conftest import ROOT
from transcript import answers

from kamurjesh import _answers, _library, calls, market, reports

HEADER = (ROOT / "include" / "kamurjesh.h").read_text(encoding="ascii")


def enum(name: str) -> dict:
    body = re.search(rf"enum {name} {{(.*?)}};", HEADER, re.S)[1]
    return {int(number): word for word, number in re.findall(r"(KAMURJESH_\w+) = (\d+)", body)}


def test_refusals_have_the_headers_names() -> None:
    assert _answers.NAMES == enum("kamurjesh_refusal")


def test_kinds_are_the_headers() -> None:
    words = {number: word.removeprefix("KAMURJESH_IS_").replace("_", " ").lower() for number, word in enum("kamurjesh_kind").items()}
    assert {number: word.lower() for number, word in reports.KINDS.items()} == words


def test_modes_are_the_headers() -> None:
    words = {number: word.removeprefix("KAMURJESH_").replace("_", "-").lower() for number, word in enum("kamurjesh_mode").items()}
    assert {number: word for word, number in market.MODES.items()} == words


def test_lengths_are_the_headers() -> None:
    for name in ("TABLE_BYTES", "IMAGE_BYTES", "LEAST_AREA", "LONGEST_REPORT"):
        assert int(re.search(rf"KAMURJESH_{name} = (\d+)", HEADER)[1]) == getattr(calls, name)


def test_every_call_is_declared_as_in_the_header() -> None:
    """By the number of its parameters: each of a call's own, in C."""
    for name, parameters in re.findall(r"^uint64_t (kamurjesh_\w+)\((.*?)\);", HEADER, re.S | re.M):
        assert len(getattr(_library.library, name).argtypes) == len(parameters.split(",")), name


def test_the_transcript_is_the_second_programs() -> None:
    folder = ROOT / "tests" / "vectors"
    commands = (folder / "commands").read_text(encoding="ascii").splitlines()
    transcript = (folder / "transcript").read_text(encoding="ascii").splitlines()
    for number, (mine, theirs) in enumerate(zip(answers(commands), transcript, strict=True), 1):
        assert mine == theirs, f"line {number}: {commands[number - 1][:200]}"
