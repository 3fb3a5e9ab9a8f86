"""python3 -m capcheck many: the verdicts on many logs, side by side, and what a CI reads of them."""
from __future__ import annotations

import argparse
import csv
import io
import json
import os
import sys
import time
from collections import Counter
from collections.abc import Iterable, Iterator, Sequence
from contextlib import ExitStack
from itertools import chain, islice
from json.encoder import encode_basestring_ascii as _quoted  # type: ignore
from pathlib import Path
from typing import Any, BinaryIO, NamedTuple

from . import heaps, judges, runs
from ._abi import whole_logs
from .processes import shared

_NUMBERS = ("size", "changed", "line")  # The fields of a result that are.
_BATCH = 256  # So many files a process or a worker gets at a time, at most.
_SOON = 0.2  # After so many seconds a process passes on what it has judged.
_UNDER_WAY = 1000  # So many batches a cluster gets at most.
_YES = int(judges.State.YES)  # Faster than the member.
_AN_ANNOTATION_ENDS = str.maketrans({"%": "%25", "\r": "%0D", "\n": "%0A"})

# What a process passes on: the text of some results, if one is wanted, how many logs are accepted, and the fields of the others' results.
_Block = tuple[bytes, int, list[tuple[Any, ...]]]


class Result(NamedTuple):
    """The verdict on a file: as it is printed, with the faulty line and its refusal, or what failed. `size` and `changed`, the time
    in nanoseconds, say of which contents it is, and `asks` by which options."""
    file: str
    size: int
    changed: int
    asks: str
    verdict: str
    line: int = 0
    refusal: str = ""
    says: str = ""
    failed: str = ""

    @property
    def status(self) -> int:
        """As that of a program: 0 accepted, 1 rejected, 3 not read."""
        return 3 if self.failed else int(self.line > 0)


def _system(url: str) -> tuple[Any, str]:
    """The file system of a URL, and the path there."""
    try:
        from fsspec.core import url_to_fs  # type: ignore
    except ImportError:
        raise ValueError(f"{url} needs the package fsspec") from None
    try:
        return url_to_fs(url)
    except (ValueError, ImportError) as wrong:
        raise ValueError(f"{url}: {wrong}") from None


def _about(file: str) -> tuple[int, int]:
    """The size of a file, and when it was changed, in nanoseconds; 0 if a URL's file system doesn't tell."""
    if "://" not in file:
        about = os.stat(file)
        return about.st_size, about.st_mtime_ns
    system, path = _system(file)
    size = system.info(path)["size"] or 0
    try:
        return size, int(system.modified(path).timestamp() * 10**9)
    except (NotImplementedError, AttributeError, KeyError):
        return size, 0


def _read(file: str) -> tuple[bytes, int]:
    """The contents of a file, and when it was changed."""
    if "://" in file:
        system, path = _system(file)
        return system.cat_file(path), _about(file)[1]
    log = os.open(file, os.O_RDONLY)
    try:
        about = os.fstat(log)
        data = os.read(log, about.st_size + 1)
        if len(data) != about.st_size:  # A pipe, or a file that grows.
            while piece := os.read(log, 2**20):
                data += piece
        return data, about.st_mtime_ns
    finally:
        os.close(log)


def files(paths: Iterable[str]) -> Iterator[str]:
    """The files that are named, by a path or a URL, and those of folders whose names end in .log, by name."""
    for path in paths:
        if "://" in path:
            system, there = _system(path)
            found = [system.unstrip_protocol(it) for it in sorted(system.find(there)) if it.endswith(".log")] if system.isdir(there) else [path]
            yield from found
        elif os.path.isdir(path):
            yield from _inside("" if (folder := str(Path(path))) == "." else f"{folder}/")
        else:
            yield path


def _inside(folder: str) -> Iterator[str]:
    """The same of a folder, whose name ends with a slash. A folder that can't be read has none."""
    try:
        with os.scandir(folder or ".") as entries:
            names = [f"{it.name}/" if it.is_dir() else it.name for it in entries if it.name.endswith(".log") or it.is_dir()]
    except OSError:
        return
    for name in sorted(names):
        if not name.endswith("/"):
            yield folder + name
        elif not os.path.islink(folder + name[:-1]):
            yield from _inside(folder + name)


def judge_file(file: str, freed: str = "held", owned: bool = False) -> Result:
    """The verdict on a file: what its first line says that it is."""
    return Result(*_fields(file, freed, owned, _asks(freed, owned)))


def _fields(file: str, freed: str, owned: bool, asks: str) -> tuple[Any, ...]:
    """The fields of the result of a file."""
    size, changed = -1, -1
    try:
        data, changed = _read(file)
        size = len(data)
        found: Any
        if data.startswith(b"run 1\n"):
            answer = whole_logs.capcheck_run_judge_bytes(data, size, runs._asks(freed, owned))
            if answer.state == _YES:  # As most are, at once.
                return file, size, changed, asks, f"yes {answer.steps} {answer.roots} {answer.objects}", 0, "", "", ""
            found, why = runs._verdict(answer), runs.why(data, freed, owned)
        elif data.startswith(b"heap 1\n"):
            found = heaps.judge(data)
            why = "" if found else heaps.why(data)
        else:
            found = judges.judge_bytes(data)
            why = "" if found else judges.why(data)
    except OSError as fault:
        return file, size, changed, asks, "", 0, "", "", f"read fault: {fault.strerror or fault}"
    except MemoryError:
        return file, size, changed, asks, "", 0, "", "", "no memory"
    if found:
        return file, size, changed, asks, str(found), 0, "", "", ""
    return file, size, changed, asks, str(found), found.line, str(found).split()[-1], why.rstrip("\n").rsplit("\n", 1)[-1], ""


def _asks(freed: str, owned: bool) -> str:
    return f"{freed} owned" if owned else freed


def _same(result: Result, asks: str) -> bool:
    """Whether a file still has the contents of which a result is, by the same options."""
    try:
        about = _about(result.file)
    except OSError:
        return False
    return not result.failed and result.asks == asks and about == (result.size, result.changed)


def read_results(file: str) -> list[Result]:
    """The results in a file, of JSON Lines or CSV; none if there is no file. What was cut at the end is left out."""
    try:
        with open(file, encoding="utf-8", errors="surrogateescape", newline="") as text:
            lines = text.read()
    except FileNotFoundError:
        return []
    whole = io.StringIO(lines[:lines.rfind("\n") + 1], newline="")
    rows: Iterable[dict[str, Any]] = csv.DictReader(whole) if file.endswith(".csv") else (json.loads(line) for line in whole)
    try:
        return [Result(**{name: int(row[name]) if name in _NUMBERS else row[name] for name in Result._fields}) for row in rows]
    except (ValueError, KeyError, TypeError):
        raise ValueError(f"{file} isn't a file of results") from None


def _line(file: str, size: int, changed: int, asks: str, verdict: str, line: int, refusal: str, says: str, failed: str) -> str:
    """A result as a line of JSON: so in a third of the time that json takes."""
    return (f'{{"file": {_quoted(file)}, "size": {size}, "changed": {changed}, "asks": "{asks}", "verdict": "{verdict}", "line": {line}, '
            f'"refusal": "{refusal}", "says": {_quoted(says)}, "failed": {_quoted(failed)}}}\n')


def _block(rows: Sequence[tuple[Any, ...]], form: str) -> _Block:
    """A block of results, whose text is JSON Lines, CSV or none."""
    text = io.StringIO("".join([_line(*row) for row in rows]) if form == "jsonl" else "")
    if form == "csv":
        csv.writer(text, lineterminator="\n").writerows(rows)
    others = [it for it in rows if it[5] or it[8]]
    return text.getvalue().encode(errors="surrogateescape"), len(rows) - len(others), others


def _blocks(names: Iterable[str], freed: str, owned: bool, form: str) -> Iterator[_Block]:
    """What a process does with files."""
    asks, rows, due = _asks(freed, owned), list[tuple[Any, ...]](), time.monotonic() + _SOON
    for name in names:
        rows.append(_fields(name, freed, owned, asks))
        if len(rows) == _BATCH or time.monotonic() > due:
            yield _block(rows, form)
            rows, due = [], time.monotonic() + _SOON
    if rows:
        yield _block(rows, form)


def _batch_blocks(names: Sequence[str], *words: Any) -> list[_Block]:
    """What a worker of a cluster does with a batch."""
    return list(_blocks(names, *words))


def _batches(names: Iterable[str], jobs: int) -> Iterator[list[str]]:
    """The files for so many jobs. The last batches are small, compared with what each job has had."""
    left, given = iter(names), 0
    while batch := list(islice(left, min(_BATCH, 1 + given // (4 * jobs)))):
        given += len(batch)
        yield batch


def judge_many(names: Iterable[str], jobs: int = 1, freed: str = "held", owned: bool = False, form: str = "") -> Iterator[_Block]:
    """What is found in files, as it comes. More than one job are as many processes."""
    left = iter(names)
    first = list(islice(left, jobs))
    left = chain(first, left)
    if len(first) < 2:
        return _blocks(left, freed, owned, form)
    return shared(_batches(left, jobs), len(first), lambda batch: _blocks(batch, freed, owned, form))


def judge_by_cluster(scheduler: str, names: Iterable[str], freed: str = "held", owned: bool = False, form: str = "") -> Iterator[_Block]:
    """The same by the workers of dask.distributed that a scheduler has: it judges again what a lost worker had. Each worker imports this
    package, and reads the files itself."""
    try:
        from distributed import Client, as_completed
    except ImportError:
        raise ValueError("--scheduler needs the package distributed") from None
    try:
        client = Client(scheduler)
    except (OSError, ValueError) as fault:
        raise ConnectionError(f"the scheduler {scheduler} doesn't answer: {fault}") from None
    with client:
        batches, words = _batches(names, max(1, sum(client.nthreads().values()))), (freed, owned, form)
        of = {client.submit(_batch_blocks, batch, *words, pure=False): batch for batch in islice(batches, _UNDER_WAY)}
        done = as_completed(list(of))
        for future in done:
            status = future.status
            if status == "cancelled":
                raise ConnectionError(f"the scheduler {scheduler} has ended")
            if status not in ("finished", "error"):  # Its worker was lost since: another one has it now.
                done.add(future)
                continue
            batch = of.pop(future)
            if status == "finished":
                yield from future.result()
            else:
                failed = f"no worker judged it: {type(future.exception()).__name__}"
                yield _block([(name, -1, -1, _asks(freed, owned), "", 0, "", "", failed) for name in batch], form)
            for more in islice(batches, 1):
                added = client.submit(_batch_blocks, more, *words, pure=False)
                of[added] = more
                done.add(added)


def junit(names: Iterable[str], others: Iterable[Result]) -> str:
    """The results of files as JUnit's XML, by those that aren't accepted."""
    from xml.sax.saxutils import escape, quoteattr  # It takes as long to import as the rest of this module.
    of, cases = {it.file: it for it in others}, []
    for name in sorted(names):
        inside = ""
        if it := of.get(name):
            kind, text = ("error", it.failed) if it.failed else ("failure", f"{it.verdict}\n{it.says}")
            inside = f"<{kind} message={quoteattr(it.failed or it.verdict)}>{escape(text)}</{kind}>"
        cases.append(f"  <testcase classname=\"capcheck\" name={quoteattr(name)}>{inside}</testcase>\n")
    failures, errors = (sum(it.status == status for it in of.values()) for status in (1, 3))
    return (f'<?xml version="1.0" encoding="UTF-8"?>\n<testsuite name="capcheck" tests="{len(cases)}" failures="{failures}" errors="{errors}">\n'
            f"{''.join(cases)}</testsuite>\n")


def annotation(it: Result) -> str:
    """A rejected or unread log, as an annotation of GitHub."""
    at = f",line={it.line}" if it.line else ""
    text = it.failed or f"{it.verdict}\n{it.says}"
    file = it.file.translate(_AN_ANNOTATION_ENDS).replace(",", "%2C").replace(":", "%3A")
    return f"::error file={file}{at}::{text.translate(_AN_ANNOTATION_ENDS)}"


def _shown(blocks: Iterator[_Block], total: int) -> Iterator[_Block]:
    """The blocks, with a bar of progress on a terminal: that of tqdm where it is installed, or a line."""
    try:
        from tqdm import tqdm  # type: ignore
        bar = tqdm(total=total, unit=" logs")
    except ImportError:
        bar = None
    number, told = 0, 0.0
    for block in blocks:
        yield block
        number += (count := block[1] + len(block[2]))
        if bar is not None:
            bar.update(count)
        elif (now := time.monotonic()) - told > 0.5 or number == total:
            told = now
            print(f"\r{number} of {total} logs", end="", file=sys.stderr, flush=True)
    if bar is None:
        print(file=sys.stderr)
    else:
        bar.close()


def summary(accepted: int, others: Iterable[Result]) -> str:
    """How many are accepted, and how many rejected, by refusal."""
    counted = Counter(f"not read: {it.failed}" if it.failed else f"rejected, {it.refusal}" for it in others)
    lines = [f"{accepted} accepted\n"] if accepted else []
    return "".join([*lines, *(f"{count} {what}\n" for what, count in sorted(counted.items(), key=lambda it: (-it[1], it[0])))])


def add_arguments(command: argparse.ArgumentParser) -> None:
    """The words of the command."""
    add = command.add_argument
    add("paths", metavar="PATH", nargs="+", help="a log, or a folder with files that end in .log; or a URL that fsspec reads")
    add("--jobs", metavar="N", type=int, default=os.cpu_count() or 1, help="how many are judged at a time; by default one for each processor")
    add("--scheduler", metavar="ADDRESS", help="have the workers of dask.distributed judge them that this scheduler has; they read the files")
    add("--results", metavar="FILE", help="add the results to a file, of JSON Lines or, if it ends in .csv, CSV; logs that it has and that "
        "didn't change aren't judged again")
    add("--junit", metavar="FILE", help="write JUnit's XML")
    add("--annotations", action="store_true", help="print rejected logs as annotations of GitHub")


def many(given: argparse.Namespace) -> tuple[bytes, int]:
    """The command: each rejected log and a summary, and the greatest status."""
    if given.jobs < 1:
        raise ValueError(f"jobs {given.jobs} isn't 1 or more")
    words, form = (given.freed, given.owned), "" if not given.results else "csv" if given.results.endswith(".csv") else "jsonl"
    known = {it.file: it for it in read_results(given.results)} if given.results else {}
    # A folder names a file once.
    found = files(given.paths) if len(given.paths) == 1 else dict.fromkeys(files(given.paths))
    names, kept = list[str](), list[Result]()

    def left() -> Iterator[str]:
        """The files that have no result."""
        for name in found:
            names.append(name)
            if known and (it := known.get(name)) and _same(it, _asks(*words)):
                kept.append(it)
            else:
                yield name

    listed = list(left()) if sys.stderr.isatty() else None  # A bar tells how many there are.
    wanted, others = left() if listed is None else listed, list[Result]()
    with ExitStack() as stack:
        written = stack.enter_context(_appended(given.results)) if form else None
        if written and form == "csv" and not written.tell():
            written.write(f"{','.join(Result._fields)}\n".encode())
        judged = judge_by_cluster(given.scheduler, wanted, *words, form) if given.scheduler else judge_many(wanted, given.jobs, *words, form)
        for text, _, rows in judged if listed is None else _shown(judged, len(listed)):
            others += (Result(*it) for it in rows)
            if written:
                written.write(text)
                written.flush()
    others = sorted([*others, *(it for it in kept if it.status)])
    if given.junit:
        Path(given.junit).write_text(junit(names, others), encoding="utf-8")
    shown = [annotation(it) if given.annotations else f"{it.file}: {it.failed or it.verdict}" for it in others]
    said = "".join(f"{line}\n" for line in shown) + summary(len(names) - len(others), others)
    return said.encode(errors="surrogateescape"), max((it.status for it in others), default=0)


def _appended(file: str) -> BinaryIO:
    """A file to add lines to, without what was cut at its end."""
    opened = open(file, "a+b")
    opened.seek(0)
    text = opened.read()
    if (end := text.rfind(b"\n") + 1) < len(text):
        opened.truncate(end)
        opened.seek(0, os.SEEK_END)
    return opened
