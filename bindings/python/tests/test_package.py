"""The package as users get it: a wheel in a clean environment, its types, its examples, and README's first program."""

import os
import re
import shutil
import subprocess
import sys
import tempfile
import unittest
from importlib.metadata import version
from importlib.util import find_spec
from pathlib import Path

HERE = Path(__file__).resolve().parents[1]


def runs(words, **options):
    """Runs a command: what it wrote, or an error with all that it said."""
    said = subprocess.run([str(word) for word in words], stdout=subprocess.PIPE, stderr=subprocess.STDOUT, text=True, **options)
    if said.returncode:
        raise AssertionError(f"{words} ended with {said.returncode}: {said.stdout}")
    return said.stdout


@unittest.skipUnless(shutil.which(os.environ.get("CC", "cc")), "no C compiler")
class Wheel(unittest.TestCase):
    def test_it_installs_into_a_clean_environment_and_readmes_first_program_runs(self):
        with tempfile.TemporaryDirectory() as folder:
            room = Path(folder)
            wheel = runs([sys.executable, HERE / "backend.py", room]).strip()
            clean = {name: text for name, text in os.environ.items() if not name.startswith(("BALKREYN_", "PYTHON"))}
            # (an environment is made in a moment if it gets no pip of its own, where the one at hand can install into another)
            outside = find_spec("pip") is not None and [int(it) for it in version("pip").split(".")[:2]] >= [22, 3]
            runs([sys.executable, "-m", "venv", *["--without-pip"] * outside, room / "clean"], env=clean)
            pip = [sys.executable, "-m", "pip", "--python", room / "clean/bin/python"] if outside else [room / "clean/bin/pip"]
            runs([*pip, "install", "-q", "--no-index", room / wheel], env=clean)
            program = re.search(r"```python\n(.*?)```", (HERE / "README.md").read_text(), re.S)[1]
            (room / "first.py").write_text(program)
            self.assertEqual(runs([room / "clean/bin/python", room / "first.py"], env=clean, cwd=folder), "best 899\n")
            symbols = runs(["nm", "-D", "--defined-only", next((room / "clean").glob("lib/*/site-packages/balkreyn/*.so"))])
            self.assertEqual({line.split()[-1].split("_")[0] for line in symbols.splitlines()}, {"balkreyn"})

    def test_sources_say_what_they_need(self):
        with tempfile.TemporaryDirectory() as folder:
            code = "import backend, sys; print(backend.build_sdist(sys.argv[1]))"
            name = runs([sys.executable, "-c", code, folder], cwd=HERE).strip()
            runs(["tar", "xzf", name], cwd=folder)
            said = subprocess.run(
                [sys.executable, "backend.py"], cwd=Path(folder, name.removesuffix(".tar.gz")), stderr=subprocess.PIPE, text=True,
                env={name: text for name, text in os.environ.items() if name != "BALKREYN_ARCHIVE"},
            )  # fmt: skip
            self.assertIn("there is no libbalkreyn.a to link", said.stderr)


class Texts(unittest.TestCase):
    @unittest.skipUnless(shutil.which("mypy"), "no mypy")
    def test_package_and_examples_are_strict_and_types_of_jobs_are_checked(self):
        wrong = "from balkreyn.sync import ALL, scope\nwith scope(ALL) as s:\n    t = s.fork(len, 'abc')\n    x: str = t.result()\n    s.fork(len, 3)\n"
        files = sorted(str(it) for it in (HERE / "examples").glob("*.py"))
        with tempfile.TemporaryDirectory() as folder:
            Path(folder, "wrong.py").write_text(wrong)
            said = subprocess.run(
                ["mypy", "--cache-dir", os.devnull, "--config-file", HERE / "pyproject.toml", HERE / "balkreyn", *files, Path(folder, "wrong.py")],
                cwd=HERE, stdout=subprocess.PIPE, text=True, env={**os.environ, "MYPYPATH": str(HERE)},
            )  # fmt: skip
        errors = [line.rsplit("/", 1)[-1].split(":")[:2] for line in said.stdout.splitlines() if ": error:" in line]
        self.assertEqual(errors, [["wrong.py", "4"], ["wrong.py", "5"]], said.stdout)

    def test_examples_run(self):
        wrote = {
            "fan_out.py": r"(no price of \w+\n)*audit: \d of 6 shops answered\nbest \d+\n",
            "bounded.py": r"332833500\n",
            "supervisor.py": r"True: \['done', 'failed', 'done'\]\n",
        }
        for name, text in wrote.items():
            self.assertRegex(runs([sys.executable, "-W", "error", HERE / "examples" / name], env={**os.environ, "PYTHONPATH": str(HERE)}), text)


if __name__ == "__main__":
    unittest.main()
