"""What `bindings/conformance/check` says of a journal and its answers."""

import os
import subprocess
import tempfile
import unittest
from pathlib import Path

CHECK = Path(__file__).resolve().parents[1] / "check"
JOURNAL = "# a journal\nopen 0\nfork 0 1 a\n\nstart 1\nok 1 5\njoin 0 1\n"
ANSWERS = "scope 1\ntask 1 thread\nstarted\nfinished\noutcome done\n"


class Check(unittest.TestCase):
    def status(self, *texts, **environment):
        """The status of the check of these texts, and what it says on standard error."""
        with tempfile.TemporaryDirectory() as folder:
            files = [Path(folder, name) for name in ("journal", "answers")][: len(texts)]
            for file, text in zip(files, texts):
                file.write_text(text)
            said = subprocess.run([CHECK, *files], capture_output=True, text=True, env={**os.environ, **environment})
        return said.returncode, said.stderr

    def test_the_answers_of_the_rules(self):
        self.assertEqual(self.status(JOURNAL, ANSWERS), (0, ""))
        self.assertEqual(self.status(JOURNAL), (0, ""))
        self.assertEqual(self.status("", ""), (0, ""))

    def test_another_answer(self):
        status, said = self.status(JOURNAL, ANSWERS.replace("started", "finished"))
        self.assertEqual(status, 3)
        self.assertIn("line 5", said)

    def test_a_refused_line(self):
        for answers in ([ANSWERS + "refused 8 wrong-stage\n"], []):
            status, said = self.status(JOURNAL + "start 1\n", *answers)
            self.assertEqual(status, 3)
            self.assertIn("line 8", said)

    def test_answers_of_another_number(self):
        self.assertEqual(self.status(JOURNAL, ANSWERS[: ANSWERS.index("outcome")])[0], 3)
        self.assertEqual(self.status(JOURNAL, ANSWERS + "started\n")[0], 3)
        self.assertEqual(self.status(JOURNAL, ANSWERS[:-1])[0], 3)

    def test_a_dropped_job_was_looked_at(self):
        head = [("open 0 await", "scope 1"), ("fork 0 1 a", "task 1 thread"), ("start 1", "started")]
        cancel, looked = ("cancel 1", "cancelled"), ("cause 1", "cancelled 1 call")
        dropped = ("fail 1 dropped", "finished")
        shield, left = ("open 1 await shield", "scope 2"), [("close 1 2", "closing"), ("closed 1 2", "closed")]

        def status(*lines):
            return self.status(*("".join(line + "\n" for line in part) for part in zip(*head, *lines)))

        self.assertEqual(status(cancel, looked, dropped), (0, ""))
        self.assertEqual(status(cancel, looked, shield, *left, looked, dropped), (0, ""))
        inner = ("open 1 await", "scope 2")
        self.assertEqual(status(inner, cancel, ("cause 2", "cancelled 1 call"), *left, dropped), (0, ""))
        for lines in (
            (cancel, dropped),
            (cancel, looked, shield, *left, dropped),
            (cancel, shield, looked, *left, dropped),
            (cancel, shield, ("cause 2", "live"), *left, dropped),
            (inner, cancel, ("cause 2", "cancelled 1 call"), *left, ("join 1 2", "refused 3 closed"), dropped),
        ):
            found, said = status(*lines)
            self.assertEqual(found, 3, lines)
            self.assertIn("fail 1 dropped", said)
        # A shield that the host ignores is one that the rules don't.
        self.assertEqual(status(cancel, shield, ("cause 2", "cancelled 1 call"), *left, dropped)[0], 3)

    def test_nothing_to_ask(self):
        self.assertEqual(self.status(JOURNAL, SCOPECTL="/nonexistent")[0], 1)
        self.assertEqual(self.status()[0], 2)


if __name__ == "__main__":
    unittest.main()
