"""A PostgreSQL server for a test or a measurement, where Debian's packages postgresql and python3-psycopg are installed."""

import contextlib
import glob
import os
import shutil
import subprocess
import tempfile

from program import LIMIT, is_there, python_with

# Where Debian has the programs of the server.
INITDB = "/usr/lib/postgresql/*/bin/initdb"


@contextlib.contextmanager
def server():
    """The environment in which clients find an empty database 'registry', and a Python for them; or None twice."""
    programs, python = sorted(glob.glob(INITDB)), python_with("psycopg")
    is_whole = is_there("postgresql", programs and shutil.which("psql"))
    if not (is_there("python3-psycopg", python) and is_whole):
        yield None, None
        return
    # The server refuses to run as root.
    as_user = ["runuser", "-u", "postgres", "--"] if os.geteuid() == 0 else []
    folder = tempfile.mkdtemp()
    if as_user:
        shutil.chown(folder, "postgres")
    data, control = os.path.join(folder, "data"), os.path.join(os.path.dirname(programs[-1]), "pg_ctl")
    run = lambda *words: subprocess.run([*as_user, *words], check=True, cwd=folder, stdin=subprocess.DEVNULL,
                                        stdout=subprocess.DEVNULL, stderr=subprocess.DEVNULL, timeout=LIMIT)
    try:
        run(programs[-1], "-D", data, "--encoding=UTF8", "--locale=C.UTF-8", "--auth=trust", "--username=postgres", "-N")
        run(control, "-D", data, "-w", "-o", f"-k {folder} -c listen_addresses='' -c fsync=off", "start")
        try:
            run("createdb", "-h", folder, "-U", "postgres", "registry")
            yield {"PGHOST": folder, "PGUSER": "postgres"}, python
        finally:
            run(control, "-D", data, "-m", "immediate", "stop")
    finally:
        shutil.rmtree(folder)


def uri_of(environment):
    """The database as a configuration names it."""
    return f"postgresql://{environment['PGUSER']}@/registry?host={environment['PGHOST']}"


def restart(folder):
    """Starts the server in a folder again. Those who are connected lose their connections."""
    control = os.path.join(os.path.dirname(sorted(glob.glob(INITDB))[-1]), "pg_ctl")
    as_user = ["runuser", "-u", "postgres", "--"] if os.geteuid() == 0 else []
    subprocess.run([*as_user, control, "-D", os.path.join(folder, "data"), "-w", "-m", "fast", "restart"], check=True, cwd=folder,
                   stdin=subprocess.DEVNULL, stdout=subprocess.DEVNULL, stderr=subprocess.DEVNULL, timeout=LIMIT)
