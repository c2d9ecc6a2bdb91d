"""What tests have in common: the proved program judges notes, and async tests run on each engine."""

import asyncio
import os
import subprocess
import tempfile
import unittest
from pathlib import Path

try:
    import trio
except ImportError:
    trio = None

TOP = Path(__file__).resolve().parents[3]
LONG = 20


def judged(case, *notes):
    """The rules answer as the notes say. The test is skipped if there is no scopectl."""
    check = TOP / "bindings" / "conformance" / "check"
    if not check.is_file() or not Path(os.environ.get("SCOPECTL") or TOP / "carried" / "scopectl").is_file():
        case.skipTest("no scopectl at hand")
    for note in notes:
        with tempfile.TemporaryDirectory() as folder:
            files = [Path(folder, "journal"), Path(folder, "answers")]
            for file, text in zip(files, (note.journal(), note.answers())):
                file.write_text(text)
            said = subprocess.run([check, *files], stdout=subprocess.PIPE, stderr=subprocess.STDOUT, text=True)
        case.assertEqual(said.returncode, 0, said.stdout)


def run_on_asyncio(main):
    return asyncio.run(main())


def run_on_trio(main):
    return trio.run(main)


def on_each_engine(case):
    """The class with the tests, once for each engine that is at hand; `self.run_async(main)` runs an async function."""
    names = case.__module__
    module = __import__(names, fromlist=["_"])
    for name, runs in (("Asyncio", run_on_asyncio), ("Trio", run_on_trio if trio else None)):
        if runs is not None:
            made = type(f"{case.__name__}On{name}", (case, unittest.TestCase), {"run_async": staticmethod(runs), "engine": name.lower()})
            made.__module__ = names
            setattr(module, made.__name__, made)
    return case
