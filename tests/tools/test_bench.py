"""Tests the table of the benchmarks' ratios, and the same as JSON, with made ratios."""

from __future__ import annotations

import contextlib
import io
import json
import subprocess
import sys
import tempfile
from pathlib import Path
from unittest.mock import patch

from bench import table, told
from bench.network import MIB, Line, built, by_cat, payload
from bench.times import Time, timed
from tests.lib.case import Case
from tests.lib.given import given

MACHINE = table.Machine(4, "a processor", "Linux 6.1", "ext4 under /tmp", (0.5, 1.25, 2.0))


class Bench(Case):
    """Ratios that are told to a file of the test's own."""

    def setUp(self) -> None:
        self.folder = Path(self.enterContext(tempfile.TemporaryDirectory(prefix="test-bench-")))
        self.enterContext(patch.object(told, "TOLD", self.folder / "out/bench.tsv"))
        self.enterContext(patch.object(table, "machine", lambda: MACHINE))

    def printed(self, *words: str) -> tuple[int, list[str]]:
        """The exit status of the program, and the lines that it prints."""
        output = io.StringIO()
        with patch.object(sys, "argv", ["table", *words]), contextlib.redirect_stdout(output):
            status = table.main()
        return status, output.getvalue().splitlines()

    def test_no_ratios(self) -> None:
        self.same("no ratio was told", self.printed(), (1, ["No benchmark has told a ratio: make bench runs them."]))

    def test_ratios(self) -> None:
        told.ratio("a / b", 3.0)
        told.ratio_of_times("one / other", 0.5, 0.25, 1.5)
        told.ratio("a / b", 1.5, 2.0, "3 / 2")
        told.ratio("bytes", 7.0)
        file = self.folder / "ratios.json"
        status, lines = self.printed("--json", str(file))
        rows = [
            "a / b            1.50      <= 2  held      3 / 2",
            "one / other      2.00    <= 1.5  NOT HELD  500 ms / 250 ms",
            "bytes            7.00",
            "1 of 2 are as wanted",
            "machine: 4 processors, a processor; Linux 6.1; ext4 under /tmp; load 0.5, 1.2, 2.0",
        ]
        self.same("each name is there once, with its last ratio, and then the machine", (status, lines[1:]), (0, rows))
        machine = {"processors": 4, "model": "a processor", "system": "Linux 6.1", "file_system": "ext4 under /tmp", "load": [0.5, 1.25, 2.0]}
        ratios = [
            {"name": "a / b", "value": 1.5, "wanted": 2.0, "figures": "3 / 2", "held": True},
            {"name": "one / other", "value": 2.0, "wanted": 1.5, "figures": "500 ms / 250 ms", "held": False},
            {"name": "bytes", "value": 7.0, "wanted": None, "figures": "", "held": None},
        ]
        self.same("the same as JSON", json.loads(file.read_text()), {"machine": machine, "ratios": ratios})

    def test_processor_seconds(self) -> None:
        told.ratio_of_times("ours / theirs", Time(3.0, 0.5) - Time(1.0, 0.25), Time(4.0, 1.0))
        told.ratio_of_times("ours / a limit", Time(3.0, 0.5), 6.0)
        figures = ["2 s / 4 s; processor 250 ms / 1 s", "3 s / 6 s; processor 500 ms"]
        self.same("each ratio has the processor seconds that are known", [it.figures for it in told.ratios()], figures)

    def test_running_programs_count(self) -> None:
        with subprocess.Popen(("cat",), stdin=subprocess.PIPE, stdout=subprocess.PIPE, bufsize=0) as server:
            to_server, replies = given(server.stdin), given(server.stdout)
            time = timed(lambda: (to_server.write(b"asked"), self.same("it answers", replies.read(5), b"asked")))
            to_server.close()
        self.holds("the processor seconds of a server that goes on are counted", time.processor > 0)

    def test_a_line_is_not_faster_than_its_rate(self) -> None:
        relay, rate = built(self.folder, "relay"), 10 * MIB
        if not relay:
            self.skipTest("it takes a C compiler")
        time = by_cat(payload(self.folder / "payload", MIB), Line(relay, rate))
        self.holds("a relay takes the time of its rate", time >= MIB / rate, time)
