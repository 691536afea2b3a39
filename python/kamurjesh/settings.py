"""Settings files, as `rehearse --market` reads them: which markets a file says, and what is wrong with one, in the same words.

    [DEFAULT]
    Kind=bonds
    Venue=V
    Port=P
    [MARKET]
    Code=350
    FirstNumber=1
    MPID 10=cancel-newest
"""

import os
from typing import Dict, List, NamedTuple, NoReturn, Optional, Union

KEYS = ("kind", "venue", "port", "code", "symbol", "firstnumber")
MODES = {"cancel-newest": 1, "cancel-oldest": 2, "decrement": 3}
LARGEST_FILE, LONGEST_LINE, MOST_SECTIONS, MOST_SETTINGS, MOST_MPIDS = 1048576, 1024, 10000, 256, 8
_BLANKS = " \t\r"

Path = Union[str, "os.PathLike[str]"]


class SettingsError(ValueError):
    """A settings file that is wrong. line: where, from 1. reason: why, in words."""

    def __init__(self, line: int, reason: str) -> None:
        super().__init__(f"line {line}: {reason}" if line else reason)
        self.line = line
        self.reason = reason


class Opening(NamedTuple):
    """What a market is opened with. code: the symbol of equities. mpids: each with the name of its mode."""

    equities: bool
    venue: str
    port: str
    code: str
    first: int
    mpids: Dict[int, str]


class _Setting(NamedTuple):
    key: str
    value: str
    line: int


class _Section:
    """A section of a file; its settings by their keys in small letters."""

    def __init__(self, name: str, line: int) -> None:
        self.name, self.line = name, line
        self.settings: Dict[str, _Setting] = {}

    def mpids(self) -> List[_Setting]:
        return [setting for key, setting in self.settings.items() if key.startswith("mpid ")]


def _fail(line: int, reason: str) -> NoReturn:
    raise SettingsError(line, reason)


def _shown(text: str) -> str:
    """A text as it can stand in a reason."""
    plain = "".join(one if " " <= one <= "~" else "?" for one in text)
    return plain if len(plain) <= 40 else plain[:40] + "..."


def _setting(section: Optional[_Section], text: str, line: int) -> _Setting:
    key, equals, value = text.partition("=")
    key, value = key.strip(_BLANKS), value.strip(_BLANKS)
    if not equals:
        _fail(line, "neither [SECTION] nor Key=Value: there is no = in it")
    if not key:
        _fail(line, "there is no key before =")
    if not value:
        _fail(line, f"{_shown(key)} has no value")
    if section is None:
        _fail(line, f"{_shown(key)} stands before the first section")
    if len(section.settings) == MOST_SETTINGS:
        _fail(line, f"more than {MOST_SETTINGS} settings in a section")
    if _small(key) in section.settings:
        _fail(line, f"{_shown(key)} a second time: it is in line {section.settings[_small(key)].line} already")
    return _Setting(key, value, line)


def _small(key: str) -> str:
    """A key in small letters; other letters than A to Z stay."""
    return "".join(chr(ord(one) + 32) if "A" <= one <= "Z" else one for one in key)


def _section(sections: List[_Section], text: str, line: int) -> _Section:
    if not text.endswith("]"):
        _fail(line, "the name of a section ends with ], and nothing stands behind it")
    name = text[1:-1].strip(_BLANKS)
    if not name:
        _fail(line, "a section without a name")
    if len(sections) == MOST_SECTIONS:
        _fail(line, f"more than {MOST_SECTIONS} sections")
    return _Section(name, line)


def _lines(data: bytes) -> List[str]:
    lines = data.decode("latin-1").split("\n")
    return lines[:-1] if lines[-1] == "" and len(lines) > 1 else lines


def _sections(lines: List[str]) -> List[_Section]:
    sections: List[_Section] = []
    for number, line in enumerate(lines, 1):
        if len(line) > LONGEST_LINE:
            _fail(number, f"it has {len(line)} bytes, and a line has at most {LONGEST_LINE}")
        if "\0" in line:
            _fail(number, "there is a NUL byte in it")
        text = line.strip(_BLANKS)
        if text.startswith("["):
            sections.append(_section(sections, text, number))
        elif text and not text.startswith("#"):
            setting = _setting(sections[-1] if sections else None, text, number)
            sections[-1].settings[_small(setting.key)] = setting
    return sections


def _check_keys(section: _Section) -> None:
    for key, setting in section.settings.items():
        if key not in KEYS and not key.startswith("mpid "):
            _fail(setting.line, f"unknown key {_shown(setting.key)}; the keys are Kind, Venue, Port, Code or Symbol, FirstNumber, MPID n")


def _usual(sections: List[_Section]) -> Optional[_Section]:
    usual: Optional[_Section] = None
    for section in sections:
        if section.name not in ("DEFAULT", "MARKET", "SESSION"):
            _fail(section.line, f"unknown section [{_shown(section.name)}]; there are [DEFAULT], [MARKET] and [SESSION]")
        if section.name == "DEFAULT":
            if usual is not None:
                _fail(section.line, f"[DEFAULT] a second time: it is in line {usual.line} already")
            usual = section
    if usual is not None and all(section.name != "SESSION" for section in sections):
        _check_keys(usual)
    return usual


class _Said:
    """A section [MARKET] over [DEFAULT]."""

    def __init__(self, own: _Section, usual: Optional[_Section]) -> None:
        self.own, self.usual = own, usual

    def found(self, key: str) -> Optional[_Setting]:
        usual = self.usual.settings.get(_small(key)) if self.usual else None
        return self.own.settings.get(_small(key), usual)

    def needed(self, key: str) -> _Setting:
        return self.found(key) or _fail(self.own.line, f"this market has no {key}")

    def text(self, key: str, most: int) -> str:
        setting = self.needed(key)
        if len(setting.value) > most or not all("!" <= one <= "~" for one in setting.value):
            _fail(setting.line, f"{_shown(setting.value)} is no {setting.key}: it has 1 to {most} characters, 21 to 7E hex")
        return setting.value

    def equities(self) -> bool:
        kind = self.needed("Kind")
        if kind.value not in ("bonds", "equities"):
            _fail(kind.line, f"{_shown(kind.value)} is no Kind: it is bonds or equities")
        return kind.value == "equities"

    def code(self, equities: bool) -> str:
        name, other = ("Symbol", "Code") if equities else ("Code", "Symbol")
        wrong = self.own.settings.get(other.lower())
        if wrong:
            _fail(wrong.line, f"a market of {'equities' if equities else 'bonds'} has a {name}, and no {other}")
        code = self.needed(name)
        if not equities and not _digits(code.value):
            _fail(code.line, f"{_shown(code.value)} is no Code: it has 1 to 9 digits")
        return self.text(name, 9)

    def first(self) -> int:
        first = self.found("FirstNumber")
        number = _number(first.value, 999999999) if first else 1
        if first and not number:
            _fail(first.line, f"{_shown(first.value)} is no FirstNumber: it is 1 to 999999999")
        return number

    def mpids(self) -> Dict[int, str]:
        source = self.own if self.usual is None or self.own.mpids() else self.usual
        found: Dict[int, str] = {}
        for setting in source.mpids():
            mpid = _number(setting.key[5:], 999999)
            if not mpid:
                _fail(setting.line, f"{_shown(setting.key)} is no MPID: it is MPID and a number from 1 to 999999")
            if mpid in found:
                _fail(setting.line, f"MPID {mpid} a second time in this market")
            if len(found) == MOST_MPIDS:
                _fail(setting.line, f"this is one MPID too many: a market has at most {MOST_MPIDS}")
            if setting.value not in MODES:
                _fail(setting.line, f"{_shown(setting.value)} is no mode: it is cancel-newest, cancel-oldest or decrement")
            found[mpid] = setting.value
        return found or _fail(self.own.line, "this market has no MPID, as in MPID 10=cancel-newest")


def _digits(text: str) -> bool:
    return all("0" <= one <= "9" for one in text)


def _number(text: str, most: int) -> int:
    """1 to a bound, of at most nine digits; 0 where the text is none."""
    number = int(text) if 0 < len(text) <= 9 and _digits(text) else 0
    return number if number <= most else 0


def _opening(said: _Said) -> Opening:
    _check_keys(said.own)
    equities = said.equities()
    venue, port = said.text("Venue", 8), said.text("Port", 8)
    return Opening(equities, venue, port, said.code(equities), said.first(), said.mpids())


def parse(data: bytes) -> List[Opening]:
    """The markets of a settings file, in its order. Raises SettingsError with the line and the reason where anything is wrong."""
    if len(data) > LARGEST_FILE:
        _fail(0, f"it has more than {LARGEST_FILE} bytes, and a settings file has at most that many")
    lines = _lines(data)
    sections = _sections(lines)
    usual = _usual(sections)
    openings: List[Opening] = []
    places: Dict[str, int] = {}
    for section in sections:
        if section.name != "MARKET":
            continue
        opening = _opening(_Said(section, usual))
        if opening.code in places:
            _fail(section.line, f"the market of line {places[opening.code]} trades {opening.code} already")
        places[opening.code] = section.line
        openings.append(opening)
    return openings or _fail(len(lines), "the file ends without a section [MARKET]")


def read(path: Path) -> List[Opening]:
    """The same of a file. Raises OSError where it cannot be read."""
    with open(path, "rb") as file:
        return parse(file.read(LARGEST_FILE + 1))
