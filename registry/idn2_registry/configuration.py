"""`registry.toml`: what a zone is."""

import ipaddress
import os
import re
import tomllib
from dataclasses import dataclass, field, fields
from enum import Enum
from pathlib import Path
from typing import Any

from .faults import Unusable

DEFAULT_PATH = "registry.toml"
REGISTERS = ("sqlite:", "postgresql://")
KEYS = ("register", "zone", "labels", "processes", "tables", "limits", "service")
UNIX = "unix:"


class LabelRules(Enum):
    """By which rules labels are tested: by the lists of docs/PROFILE.md, or by RFC 5892 and RFC 5893 whole."""

    PROFILE = "profile"
    STANDARD = "standard"


@dataclass(frozen=True)
class Limits:
    """What bounds one request (docs/idn2.1 has the options of the same names); `seconds` bounds its time."""

    tries: int = 100_000
    steps: int = 1_000_000
    limit: int = 1_000
    seconds: float = 5


@dataclass(frozen=True)
class Service:
    """What `serve` is told. It listens in a Unix socket, or at an address of this machine alone. Only with a file of the token
    that callers show are labels registered and released there."""

    listen: Path | tuple[str, int] = ("127.0.0.1", 8053)
    token: Path | None = None
    connections: int = 256


LEAST = {"tries": 1, "steps": 2, "limit": 1}
MOST = {"tries": 10**9, "steps": 10**18, "limit": 10**9, "seconds": 3600}
MOST_PROCESSES = 1024
MOST_CONNECTIONS = 100_000


class TomlFile:
    """A file of TOML as it was read, by whose lines faults are told."""

    def __init__(self, path: Path) -> None:
        self.path = path
        try:
            self.text = path.read_text(encoding="utf-8")
        except OSError as error:
            raise Unusable(f"{path}: {error.strerror}: write one, or name it with --config FILE") from error
        except UnicodeDecodeError as error:
            line = error.object.count(b"\n", 0, error.start) + 1
            raise Unusable(f"{path}: line {line}: not UTF-8 at byte {error.start + 1}: save it as UTF-8") from error
        # A line ends nowhere else.
        self.lines = self.text.removesuffix("\n").split("\n")

    def fault(self, key: str, words: str, section: str = "") -> Unusable:
        """What is wrong with a key, with the line where it stands."""
        return Unusable(f"{self.place(key, section)}: {words}")

    def place(self, key: str, section: str = "") -> str:
        """Where a key stands, as an operator is told."""
        return f"{self.path}: line {self.line_of(key, section)}: {key}"

    def line_of(self, key: str, section: str) -> int:
        """The line of a key, else that of its section, else the last line."""
        inside, head = "", 0
        for number, line in enumerate(self.lines, 1):
            if found := re.match(r"\s*\[+\s*[\"']?([^\]]*?)[\"']?\s*\]", line):
                inside = found[1]
                head = number if inside in (section, key) else head
            is_here = inside == section and re.match(rf"\s*[\"']?{re.escape(key)}[\"']?\s*[=.]", line)
            if is_here or section and re.match(rf"\s*{section}\s*(\.\s*[\"']?{re.escape(key)}\b|=)", line):
                return number
        return head or len(self.lines)


class Use(Enum):
    """What a configuration is read for: answers about labels, which need a table of the zone; or jobs on tables alone, of which
    one makes that table."""

    LABELS = "labels"
    TABLES = "tables"


@dataclass(frozen=True)
class Configuration:
    """A zone: its register, its tables by their names in the order of the file, and under which of them labels collide."""

    file: TomlFile
    # The address of a database may have a password.
    register: str = field(repr=False)
    tables: dict[str, Path]
    zone: str
    limits: Limits
    processes: int
    labels: LabelRules = LabelRules.PROFILE
    service: Service = field(default_factory=Service)

    @property
    def path(self) -> Path:
        """The path of its file."""
        return self.file.path

    @property
    def admitting(self) -> tuple[str, ...]:
        """The names of the tables that say which labels may be registered. The table of the zone has the letters of all
        tables, and so is none of them if there are others."""
        others = tuple(name for name in self.tables if name != self.zone)
        return others or (self.zone,)


def read_configuration(path: str | os.PathLike[str] = DEFAULT_PATH, use: Use = Use.LABELS) -> Configuration:
    """The configuration in a file. Raises Unusable with the file, the line and the remedy."""
    return Reader(Path(path), use).configuration()


def read_token(configuration: Configuration) -> bytes | None:
    """The token that callers of the service show, in the file that is named for it, if one is. Raises Unusable for one that can
    be guessed."""
    path = configuration.service.token
    if path is None:
        return None
    try:
        with open(path, "rb") as file:
            token = file.read(4097).strip()
    except OSError as error:
        raise configuration.file.fault("token", f"{path}: {error.strerror}: mend its path", "service") from error
    if not 32 <= len(token) <= 4096 or not token.isascii() or len(token.split()) != 1:
        words = f"{path}: a token is a word of 32 letters or more: openssl rand -hex 32 makes one"
        raise configuration.file.fault("token", words, "service")
    return token


class Reader(TomlFile):
    """Reads one file."""

    def __init__(self, path: Path, use: Use = Use.LABELS) -> None:
        super().__init__(path)
        self.use = use
        try:
            self.values: dict[str, Any] = tomllib.loads(self.text)
        except tomllib.TOMLDecodeError as error:
            raise Unusable(self.told_of_syntax(str(error))) from error

    def told_of_syntax(self, message: str) -> str:
        """A message of tomllib with its line in front."""
        found = re.fullmatch(r"(.*) \(at (?:line (\d+), column \d+|end of document)\)", message, re.DOTALL)
        words, line = (found[1], found[2]) if found else (message, None)
        return f"{self.path}: line {line or len(self.lines)}: {words}: mend the TOML there"

    def configuration(self) -> Configuration:
        """All of it."""
        for key in self.values:
            if key not in KEYS:
                raise self.fault(key, f"nothing has this name: write one of {', '.join(KEYS)}")
        register, tables = self.register(), self.tables()
        zone, limits, processes = self.zone(tables), self.limits(), self.processes()
        return Configuration(self, register, tables, zone, limits, processes, self.labels(), self.service())

    def register(self) -> str:
        """Where the register is; a file's path is made whole from the folder of the configuration."""
        register = self.values.get("register")
        if not isinstance(register, str) or not register.startswith(REGISTERS):
            raise self.fault("register", 'write register = "sqlite:FILE" or register = "postgresql://.."')
        kind, _, rest = register.partition(":")
        if kind == "sqlite":
            if not rest or "\0" in rest:
                raise self.fault("register", "no file is named: write sqlite: and its path")
            return f"sqlite:{self.path.parent / rest}"
        return register

    def section(self, name: str) -> dict[str, Any]:
        """A section, which may be missing."""
        section = self.values.get(name, {})
        if not isinstance(section, dict):
            raise self.fault(name, f"not a section: write [{name}], and each on a line below")
        return section

    def tables(self) -> dict[str, Path]:
        """The paths of the tables."""
        tables = self.section("tables")
        if not tables:
            raise self.fault("tables", 'no table: write [tables], and below it NAME = "FILE"')
        for name, path in tables.items():
            if not isinstance(path, str) or not path or "\0" in path:
                raise self.fault(name, f'not a path: write {name} = "FILE"', "tables")
        return {name: self.path.parent / path for name, path in tables.items()}

    def zone(self, tables: dict[str, Path]) -> str:
        """The name of the table of the zone."""
        if "zone" not in self.values and (len(tables) == 1 or self.use is Use.TABLES):
            return next(iter(tables))
        zone = self.values.get("zone")
        if isinstance(zone, str) and zone in tables:
            return zone
        remedy = "leave it out" if len(tables) == 1 else f"""idn2-registry join {' '.join(tables)} > zone.txt makes a table of \
them; then write zone = "zone", and below [tables] zone = "zone.txt\""""
        told = "no name of [tables]" if "zone" in self.values else "missing, since there are several tables"
        raise self.fault("zone", f"{told}: {remedy}", "" if "zone" in self.values else "tables")

    def limits(self) -> Limits:
        """The limits, each within what the program takes."""
        limits = self.section("limits")
        known = [field.name for field in fields(Limits)]
        for name, value in limits.items():
            if name not in known:
                raise self.fault(name, f"no limit has this name: write one of {', '.join(known)}", "limits")
            is_number = isinstance(value, (int, float) if name == "seconds" else int) and not isinstance(value, bool)
            if not (is_number and LEAST.get(name, 0) <= value <= MOST[name] and value):
                raise self.fault(name, f"write a number from {LEAST.get(name, 'above 0')} to {MOST[name]}", "limits")
        return Limits(**limits)

    def labels(self) -> LabelRules:
        """The rules of labels."""
        known = [rules.value for rules in LabelRules]
        labels = self.values.get("labels", LabelRules.PROFILE.value)
        if labels not in known:
            raise self.fault("labels", f"no rules have this name: write one of {', '.join(known)}")
        return LabelRules(labels)

    def processes(self) -> int:
        """How many requests the program answers at once."""
        processes = self.values.get("processes", os.cpu_count() or 1)
        return self.whole_number("processes", processes, MOST_PROCESSES)

    def whole_number(self, key: str, value: object, most: int, section: str = "") -> int:
        """A number from 1 to the most."""
        if not isinstance(value, int) or isinstance(value, bool) or not 1 <= value <= most:
            raise self.fault(key, f"write a number from 1 to {most}", section)
        return value

    def service(self) -> Service:
        """What the service is told."""
        told = self.section("service")
        known = [field.name for field in fields(Service)]
        for name in told:
            if name not in known:
                raise self.fault(name, f"nothing has this name: write one of {', '.join(known)}", "service")
        given: dict[str, Any] = {}
        if "listen" in told:
            given["listen"] = self.listen(told["listen"])
        if "token" in told:
            if not isinstance(told["token"], str) or not told["token"] or "\0" in told["token"]:
                raise self.fault("token", 'not a path: write token = "FILE"', "service")
            given["token"] = self.path.parent / told["token"]
        if "connections" in told:
            given["connections"] = self.whole_number("connections", told["connections"], MOST_CONNECTIONS, "service")
        return Service(**given)

    def listen(self, told: object) -> Path | tuple[str, int]:
        """Where the service listens."""
        text = told if isinstance(told, str) else ""
        if text.startswith(UNIX) and text != UNIX and "\0" not in text:
            return self.path.parent / text.removeprefix(UNIX)
        host, _, port = text.rpartition(":")
        try:
            if ipaddress.ip_address(host.strip("[]")).is_loopback and 0 <= int(port) <= 65_535:
                return host.strip("[]"), int(port)
        except ValueError:
            pass
        raise self.fault("listen", 'no address of this machine alone: write "127.0.0.1:8053" or "unix:FILE", and let a web '
                         "server pass on what comes from others", "service")
