"""The journals of Trio programs: the rules refuse no line, and answer each as Trio did."""

import subprocess
import sys
import tempfile
import unittest
from pathlib import Path

sys.path.insert(0, str(Path(__file__).resolve().parent))
import demo

CHECK = Path(__file__).resolve().parents[1] / "check"


class Journals(unittest.TestCase):
    def outcomes(self, program, *arguments):
        """Checks the journal of the program, and returns what its joins answered."""
        texts = demo.journal_of(program, *arguments)
        self.assertNotIn("#", texts[0])
        with tempfile.TemporaryDirectory() as folder:
            files = [Path(folder, name) for name in ("journal", "answers")]
            for file, text in zip(files, texts):
                file.write_text(text)
            said = subprocess.run([CHECK, *files], stdout=subprocess.PIPE, stderr=subprocess.STDOUT, text=True)
        self.assertEqual(said.returncode, 0, said.stdout + texts[0])
        return [line[len("outcome ") :] for line in texts[1].splitlines() if line.startswith("outcome")]

    def test_the_first_failure_cancels(self):
        self.assertEqual(self.outcomes(demo.the_first_failure_cancels), ["failed 2 lookuperror"])

    def test_all_are_done(self):
        self.assertEqual(self.outcomes(demo.all_are_done), ["done", "done"])

    def test_a_deadline_passes(self):
        self.assertEqual(self.outcomes(demo.a_deadline_passes), ["cancelled 1"])

    def test_a_call_cancels(self):
        self.assertEqual(self.outcomes(demo.a_call_cancels), ["cancelled 1"])

    def test_a_body_fails(self):
        self.assertEqual(self.outcomes(demo.a_body_fails), ["cancelled 1"])

    def test_a_service_starts(self):
        self.assertEqual(self.outcomes(demo.a_service_starts), ["done", "done"])

    def test_storms(self):
        kinds = set()
        for seed in range(40):
            kinds.update(outcome.split()[0] for outcome in self.outcomes(demo.a_storm, seed))
        self.assertGreaterEqual(kinds, {"done", "failed", "cancelled"})


if __name__ == "__main__":
    unittest.main()
