"""Requests to several processes of out/ecmaprint at once, by GNU parallel: the answers are those of one process, in the same order."""

import json
import subprocess
import tempfile
import unittest

from runs import JQUERY, TOP, run, write

PROGRAM = f"{TOP}/out/ecmaprint"


class Parallel(unittest.TestCase):
    def test_four_processes_answer_as_one(self):
        tree = json.loads(run("tree-of", "-", given="f(a + b, `c${d}`);").stdout)
        body = json.loads(run("tree-of", "--flat", JQUERY).stdout)
        lines = [json.dumps({"id": at, "tree": tree} if at % 50 else {"id": at, "flat": body, "config": {"minify": at % 100 == 0}}) for at in range(200)]
        lines[7] = "no request"
        with tempfile.TemporaryDirectory() as folder:
            path = write(folder, "requests", "".join(f"{line}\n" for line in lines))
            with open(path, encoding="utf-8") as given:
                one = subprocess.run([PROGRAM], stdin=given, capture_output=True, text=True, check=True)
            # (blocks of 100,000 bytes end at line ends, so each process gets whole requests)
            words = ["parallel", "--pipe", "--keep-order", "--jobs", "4", "--block", "100k", PROGRAM]
            with open(path, encoding="utf-8") as given:
                four = subprocess.run(words, stdin=given, capture_output=True, text=True, check=True)
        self.assertEqual(four.stdout, one.stdout)
        answers = [json.loads(line) for line in one.stdout.splitlines()]
        self.assertEqual([answer.get("id") for answer in answers], [None if at == 7 else at for at in range(200)])


if __name__ == "__main__":
    unittest.main()
