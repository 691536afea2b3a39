"""Settings files: the markets that rehearse opens, and what it says where a file is wrong, line and reason, over many files changed at
random. The program of the tree is asked where KAMURJESH_REHEARSE names it."""

import os
import random
import re
import subprocess
from pathlib import Path

import pytest
from conftest import ROOT

from kamurjesh import Equities, Market, SettingsError, settings

MARKETS = ROOT / "examples" / "markets"
REHEARSE = os.environ.get("KAMURJESH_REHEARSE")
FILES = int(os.environ.get("KAMURJESH_SETTINGS_FILES", "400"))

LINES = [
    "[DEFAULT]", "[MARKET]", "[SESSION]", "[OTHER]", "[MARKET", "[]", "Kind=bonds", "Kind=equities", "Kind=shares", "Venue=V", "Venue=",
    "Venue=TOO-LONG-V", "Port=P", "venue=v", "Code=350", "Code=35a", "Code=1234567890", "Symbol=7203", "FirstNumber=0", "FirstNumber=7",
    "FirstNumber=1000000000", "MPID 10=cancel-newest", "MPID 11=cancel-oldest", "MPID 010=decrement", "MPID 0=decrement", "MPID x=decrement",
    "MPID 1000000=decrement", "MPID 12=newest", "Unknown=1", "# a comment", "", "no equals", "=1", "  Port = Q ", "Port=\u00e9", "x" * 1100,
    *(f"MPID {n}=decrement" for n in range(20, 30)),
]  # fmt: skip


def changed(source: random.Random) -> bytes:
    """A file of examples/markets with some lines added, taken away and exchanged."""
    lines = source.choice(sorted(MARKETS.glob("*.cfg"))).read_text(encoding="ascii").split("\n")
    for _ in range(source.randrange(5)):
        at = source.randrange(len(lines) + 1)
        lines[at : at + source.randrange(2)] = [source.choice(LINES)] * source.randrange(2)
    return "\n".join(lines).encode("latin-1") + source.choice([b"", b"", b"\n", b"\0", b"\r\n[MARKET]"])


def mine(data: bytes) -> str:
    try:
        settings.parse(data)
    except SettingsError as error:
        return str(error)
    return ""


def rehearse(path: Path) -> str:
    told = subprocess.run([REHEARSE, "--market", str(path)], stdin=subprocess.DEVNULL, capture_output=True, check=False)
    return told.stderr.decode("ascii").strip() if told.returncode == 2 else ""


@pytest.mark.skipif(not REHEARSE, reason="KAMURJESH_REHEARSE names no program")
def test_the_same_faults_as_rehearse(tmp_path: Path) -> None:
    source = random.Random(20261116)
    path = tmp_path / "market.cfg"
    wrong = 0
    for _ in range(FILES):
        data = changed(source)
        path.write_bytes(data)
        theirs = re.sub(r"^.*?market\.cfg(?:, |: )", "", rehearse(path))
        assert mine(data) == theirs, data
        wrong += theirs != ""
    assert FILES / 10 < wrong < FILES


def test_markets_of_the_examples() -> None:
    assert Market.from_settings(MARKETS / "mixed.cfg").table != Market.from_settings(MARKETS / "mixed.cfg", "351").table
    assert isinstance(Equities.from_settings(MARKETS / "mixed.cfg", "7203"), Equities)
    with pytest.raises(ValueError, match="no market of bonds with the code 7203"):
        Market.from_settings(MARKETS / "mixed.cfg", "7203")


def test_a_fault_has_line_and_reason(tmp_path: Path) -> None:
    path = tmp_path / "market.cfg"
    path.write_text("[MARKET]\nKind=bonds\nVenue=V\nPort=P\nCode=350\nMPID 10=newest\n", encoding="ascii")
    with pytest.raises(SettingsError) as told:
        Market.from_settings(path)
    assert told.value.line == 6 and "cancel-newest" in told.value.reason
