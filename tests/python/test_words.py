"""A reject is told in rehearse's words: every line of the examples that rehearse says is rejected, with the same reason."""

import re

import pytest
from conftest import ROOT

from kamurjesh import Equities, Market, Refused, Rejected

MPIDS = {mpid: "cancel-newest" for mpid in range(10, 15)}


@pytest.mark.parametrize("example, kind, code", [("book/refusals", Market, "350"), ("equities/shares", Equities, "7203")])
def test_reasons(example: str, kind, code: str) -> None:
    told = (ROOT / "examples" / f"{example}.rehearsed").read_text(encoding="ascii")
    market = kind("V", "P", code, MPIDS)
    rejected = re.findall(r"^line (\d+): (?:session reject|order rejected|cancel rejected|replacement rejected): (.*)$", told, re.M)
    reasons = {}
    for number, line in enumerate((ROOT / "examples" / f"{example}.txt").read_bytes().split(b"\n"), 1):
        try:
            answer = market.take(line.replace(b"|", b"\x01"))
        except Refused:
            continue
        if isinstance(answer, Rejected):
            reasons[str(number)] = answer.reason
    assert reasons == dict(rejected)
