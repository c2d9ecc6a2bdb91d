"""Runs Trio's own tests under the instrument, and has the proved program check each journal that opens a scope.

    python3 bindings/conformance/tests/trio_itself.py

It wants Trio with its tests, and pytest. A journal with a remark (`#`) says itself what no line can say, and is passed over.
"""

import contextlib
import io
import subprocess
import sys
import tempfile
from pathlib import Path

import pytest
import trio

HERE = Path(__file__).resolve().parent
sys.path.insert(0, str(HERE.parent))
from trio_journal import TrioJournal  # noqa: E402

FILES = [f"_core/tests/test_{it}.py" for it in ("run", "parking_lot", "mock_clock", "local")]
FILES += [f"tests/test_{it}.py" for it in ("timeouts", "sync", "channel", "threads", "util", "testing")]


class Journals:
    """A plugin of pytest: each run of Trio in a test writes a journal."""

    def __init__(self):
        self.test, self.journals = "", []
        self.run = trio._core._run.run
        for place in (trio, trio._core, trio._core._run):
            place.run = self._journaled

    def _journaled(self, async_fn, *args, **options):
        journal = TrioJournal()

        async def main():
            journal.__enter__()
            try:
                return await async_fn(*args)
            finally:
                journal.__exit__()

        main.__name__ = getattr(async_fn, "__name__", "main")
        try:
            return self.run(main, **options)
        finally:
            self.journals.append((self.test, journal))

    def pytest_runtest_setup(self, item):
        self.test = item.name


def check(room, journal):
    """What the proved program says of the journal, if it is not as the rules answer."""
    files = [room / "journal", room / "answers"]
    for file, text in zip(files, (journal.text(), journal.answers())):
        file.write_text(text)
    said = subprocess.run([HERE.parent / "check", *files], stdout=subprocess.PIPE, stderr=subprocess.STDOUT, text=True)
    return said.stdout if said.returncode else ""


def main():
    journals = Journals()
    top = Path(trio.__file__).parent
    files = [str(top / it) for it in FILES if (top / it).is_file()]
    # (what a test of Trio's says of tracebacks, with the instrument's frames in them, is no matter here)
    with contextlib.redirect_stdout(io.StringIO()):
        pytest.main(["-q", "-p", "no:cacheprovider", "-W", "ignore", *files], plugins=[journals])
    alike, remarks, others = 0, 0, []
    with tempfile.TemporaryDirectory() as folder:
        for test, journal in journals.journals:
            if "open " not in journal.text():
                continue
            if "#" in journal.text():
                remarks += 1
                continue
            said = check(Path(folder), journal)
            if not said:
                alike += 1
            else:
                others.append(f"{test}: {said.strip()}")
    print(f"journals of Trio's own tests: {alike} alike, {remarks} with a remark, {len(others)} others")
    print("\n".join(others))
    return 1 if others or not alike else 0


if __name__ == "__main__":
    sys.exit(main())
