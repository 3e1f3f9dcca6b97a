"""`check-config`: whether the configuration, its tables and its register can be used, and what they lack."""

import contextlib

from .answers import ExitStatus
from .configuration import Configuration, read_token
from .faults import Fault, Unusable
from .join import lacking
from .output import Output
from .program import Program
from .register import open_register
from .tables import Table, table_of_zone
from .words import counted

# So many gaps of a table are named, and so many pairs that differ; the program tells all of them.
SHOWN_PAIRS = 3


def check_configuration(configuration: Configuration, program: Program, output: Output) -> None:
    """Tells of each part that it can be used, or what is wrong with it, by file and line."""
    check_tables(configuration, program, output)
    check_register(configuration, output)
    check_token(configuration, output)
    output.fact({"program": program.path, "version": program.version}, f"{program.path}: {program.version}", ExitStatus.YES)


def check_tables(configuration: Configuration, program: Program, output: Output) -> None:
    """Each table, and whether that of the zone has all pairs of the others."""
    tables: dict[str, Table] = {}
    for name, path in configuration.tables.items():
        try:
            table = table_of_zone(configuration, name, program)
        except Unusable as error:
            output.fact({"table": name, "fault": str(error)}, str(error), ExitStatus.NOT_KNOWN)
            continue
        tables[name] = table
        told = {"table": name, "file": str(path), "entries": table.entries, "gaps": len(table.gaps)}
        output.fact(told, f"{path}: {name}: {counted(table.entries, 'entry', 'entries')}, {counted(len(table.gaps), 'gap')}",
                    ExitStatus.YES)
        for gap in table.gaps[:SHOWN_PAIRS]:
            output.fact({"table": name, "missing": gap}, f"{path}: add the pair {gap}", ExitStatus.NO)
        for pair in table.differences[:SHOWN_PAIRS]:
            # Advice, no fault: a registry may want it so.
            words = f"{path}: the pair {pair} has other conditions the other way, which RFC 7940, 5.3.5, advises against"
            output.fact({"table": name, "differs": pair}, words, ExitStatus.YES)
        for kind in table.idle:
            words = f"{path}: no action names the type {kind}, so that it blocks nothing: was it misspelt?"
            output.fact({"table": name, "idle": kind}, words, ExitStatus.NO)
    if (zone := tables.get(configuration.zone)) is not None:
        admitting = [tables[name] for name in configuration.admitting if name in tables]
        if doubt := lacking(zone, admitting):
            words = f"{doubt}: no label is told to be available"
            output.fact({"table": zone.name, "doubt": words}, f"{zone.path}: {words}", ExitStatus.NO)


def check_register(configuration: Configuration, output: Output) -> None:
    """The register."""
    # The address of a database may have a password, and what isn't open doesn't say where it is.
    where = configuration.register.partition(":")[0]
    try:
        with contextlib.closing(open_register(configuration)) as register:
            where, faults, count = register.where(), register.faults(), sum(1 for _ in register.rows())
    except Fault as error:
        output.fact({"register": where, "fault": str(error)}, str(error), ExitStatus.NOT_KNOWN)
        return
    for fault in faults:
        output.fact({"register": where, "lacks": fault}, fault, ExitStatus.NO)
    output.fact({"register": where, "labels": count}, f"{where}: {counted(count, 'label')}", ExitStatus.YES)


def check_token(configuration: Configuration, output: Output) -> None:
    """The token of the service, which isn't told."""
    try:
        read_token(configuration)
    except Fault as error:
        output.fact({"service": "token", "fault": str(error)}, str(error), ExitStatus.NOT_KNOWN)
