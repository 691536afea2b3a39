"""Why a message was rejected, in words: those of rehearse, from the same file (words.def)."""

import re
from pathlib import Path
from typing import TYPE_CHECKING, Dict, Tuple

if TYPE_CHECKING:
    from .reports import Report

_ROW = re.compile(r'WORDS\((\w+), "([^"]*)", "([^"]*)"\)$')
_TAG = re.compile(r'TAG\("(\d+)", "([^"]*)", "([^"]*)", (both|bonds|equities)\)$')


def _file() -> Path:
    """Beside this file in a wheel; in the tree where rehearse has it."""
    here = Path(__file__).resolve().parent
    beside = here / "words.def"
    return beside if beside.is_file() else here.parent.parent / "tools" / "rehearse" / "words.def"


def _tables() -> Tuple[Dict[str, Dict[str, str]], Dict[Tuple[str, str], str]]:
    words: Dict[str, Dict[str, str]] = {}
    tags: Dict[Tuple[str, str], str] = {}
    for line in _file().read_text(encoding="ascii").splitlines():
        row, tag = _ROW.match(line), _TAG.match(line)
        if row:
            words.setdefault(row[1], {})[row[2]] = row[3]
        elif tag:
            for market in ("bonds", "equities") if tag[4] == "both" else (tag[4],):
                tags[market, tag[1]] = f" ({tag[2]}: {tag[3]})"
    return words, tags


_WORDS, _TAGS = _tables()


def word(table: str, code: str) -> str:
    """The words of a code in a table of words.def, or those for any other code."""
    return _WORDS[table].get(code, _WORDS[table]["*"])


def _session_reason(report: "Report") -> str:
    market = "equities" if report.equities else "bonds"
    tag = report[371]
    return f"373={report[373]}, {word('session_reasons', report[373])} {tag}{_TAGS.get((market, tag), '')}"


def _order_reason(report: "Report") -> str:
    if report[103] == "1":
        return f"103=1, unknown {'symbol' if report.equities else 'bond code'} in tag 55"
    return f"103={report[103]}, {word('order_reasons', report[103])}"


def _change_reason(report: "Report") -> str:
    table = "replacement_reasons" if report[434] == "2" else "cancel_reasons"
    told = f"102={report[102]}, {word(table, report[102])}"
    if report[37] == "NONE":
        return told + ": none has the ClOrdID of tag 41"
    if report[102] == "1":
        told += f" under the {'symbol' if report.equities else 'bond code'} of tag 55"
    return told + f"; order {report[37]} is {word('order_statuses', report[39])}, 39={report[39]}"


def reason_of(report: "Report") -> str:
    """Why the message behind a reject was rejected; empty for a report of another kind."""
    tellers = {"Session Reject": _session_reason, "Rejected": _order_reason, "Cancel reject": _change_reason}
    teller = tellers.get(report.kind)
    return teller(report) if teller else ""
