"""What the tests of the package share: folders with a zone, the command, and a server of PostgreSQL."""

import io
import os
import subprocess
import sys
from collections.abc import Callable, Iterator, Sequence
from pathlib import Path

import pytest

PACKAGE = Path(__file__).resolve().parent.parent
ROOT = PACKAGE.parent
PROGRAM = ROOT / "crates" / "idn2" / "out" / "idn2"
TABLES = ROOT / "tables"
LIMIT = 60
sys.path[:0] = [str(PACKAGE), str(ROOT / "tests"), str(ROOT / "conformance")]

import postgresql  # noqa: E402

from idn2_registry import Zone  # noqa: E402
from idn2_registry.command import main  # noqa: E402


class Place:
    """A folder with a configuration, in which the command is run."""

    def __init__(self, folder: Path) -> None:
        self.folder = folder
        self.register = "sqlite:register.db"
        self.environment = {**os.environ, "PYTHONPATH": str(PACKAGE), "PYTHONUTF8": "1"}

    def write(self, name: str, text: str | bytes) -> Path:
        """A file in the folder."""
        path = self.folder / name
        path.write_bytes(text if isinstance(text, bytes) else text.encode())
        return path

    def configure(self, more: str = "", **tables: str | Path) -> None:
        """A configuration with tables by their names."""
        lines = [f'{name} = "{path}"' for name, path in (tables or {"de": TABLES / "german.txt"}).items()]
        head, _, rest = more.partition("[")
        sections = "[" + rest if rest else ""
        self.write("registry.toml", "\n".join([f'register = "{self.register}"', head, "[tables]", *lines, sections, ""]))

    def words(self, *words: str) -> list[str]:
        """The words that run the command."""
        return [sys.executable, "-m", "idn2_registry", *words, "--idn2", str(PROGRAM)]

    def start(self, *words: str, **more: object) -> subprocess.Popen[bytes]:
        """The command as a process of its own."""
        options = {"cwd": self.folder, "env": self.environment, "stdin": subprocess.PIPE, "stdout": subprocess.PIPE,
                   "stderr": subprocess.PIPE, **more}
        return subprocess.Popen(self.words(*words), **options)  # type: ignore[call-overload, no-any-return]

    def run(self, *words: str, given: bytes = b"") -> subprocess.CompletedProcess[bytes]:
        """A run of the command, in this process."""
        streams = [io.TextIOWrapper(io.BytesIO(text), "utf-8") for text in (given, b"", b"")]
        before, folder = (sys.stdin, sys.stdout, sys.stderr), os.getcwd()
        sys.stdin, sys.stdout, sys.stderr = streams
        os.chdir(self.folder)
        try:
            status = main([*words[:1], "--idn2", str(PROGRAM), *words[1:]])
        except SystemExit as end:
            status = int(end.code or 0)
        finally:
            sys.stdin, sys.stdout, sys.stderr = before
            os.chdir(folder)
        output, messages = (text_of(stream) for stream in streams[1:])
        return subprocess.CompletedProcess(words, status, output, messages)

    def expect(self, words: Sequence[str], output: str, status: int, message: str = "", given: bytes = b"") -> None:
        """The message is a part of what is told on standard error; if there is none, nothing is told."""
        done = self.run(*words, given=given)
        found = done.stdout.decode(), done.stderr.decode(), done.returncode
        assert (found[0], found[2]) == (output, status), (words, "wanted", output, status, "found", found)
        assert message in found[1] and bool(message) == bool(found[1]), (words, "wanted", message, "found", found)

    def load(self, *labels: str) -> None:
        """Registers labels."""
        self.write("labels.txt", "".join(f"{label}\n" for label in labels))
        done = self.run("load", "labels.txt")
        assert done.returncode == 0, done

    def zone(self) -> Zone:
        """The zone."""
        return Zone.open(self.folder / "registry.toml", PROGRAM)


def text_of(stream: io.TextIOWrapper) -> bytes:
    """What was written to a stream in memory."""
    stream.flush()
    buffer = stream.buffer
    assert isinstance(buffer, io.BytesIO)
    return buffer.getvalue()


@pytest.fixture
def place(tmp_path: Path) -> Place:
    """A zone with the German table, in a file of SQLite, without a label."""
    made = Place(tmp_path)
    made.configure()
    made.load()
    return made


@pytest.fixture
def bare(tmp_path: Path) -> Place:
    """A folder with nothing in it."""
    return Place(tmp_path)


@pytest.fixture(scope="session")
def server() -> Iterator[Callable[[str], str]]:
    """Makes empty databases in a server of PostgreSQL, by their names, and gives their URIs."""
    with postgresql.server() as (environment, _):
        if environment is None:
            pytest.skip("postgresql, python3-psycopg")
        folder, user = environment["PGHOST"], environment["PGUSER"]

        def database(name: str) -> str:
            subprocess.run(["createdb", "-h", folder, "-U", user, name], check=True, timeout=LIMIT)
            return f"postgresql://{user}@/{name}?host={folder}"

        yield database


@pytest.fixture(params=["sqlite", "postgresql"])
def kind(request: pytest.FixtureRequest, place: Place) -> Iterator[Place]:
    """A zone with either register."""
    if request.param == "postgresql":
        database: Callable[[str], str] = request.getfixturevalue("server")
        place.register = database(f"zone{abs(hash(str(place.folder)))}")
        place.configure()
        place.load()
    yield place
