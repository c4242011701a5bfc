"""scripts/print on many files: folders, patterns, where their texts go, and what becomes of faults."""

import os
import pty
import resource
import shutil
import signal
import subprocess
import tempfile
import time
import unittest

from runs import SCRIPTS, TOP, run, text_of, write, write_program


class Files(unittest.TestCase):
    def setUp(self):
        folder = tempfile.TemporaryDirectory()
        self.addCleanup(folder.cleanup)
        self.folder, self.out = os.path.realpath(folder.name), f"{os.path.realpath(folder.name)}/out"
        for path, text in (("src/a.js", "a  =  1"), ("src/b/c.ts", "let c: d"), ("src/b/e.mjs", "e"), ("src/.f/g.js", "g"), ("src/node_modules/h.js", "h"), ("src/i.txt", "i")):
            self.write(path, text)

    def write(self, path, text):
        os.makedirs(os.path.dirname(f"{self.folder}/{path}"), exist_ok=True)
        return write(self.folder, path, text)

    def below(self, folder):
        return sorted(os.path.relpath(os.path.join(at, file), folder) for at, _, files in os.walk(folder) for file in files)

    def test_a_folder(self):
        ran = run("print", f"{self.folder}/src", "--out-dir", self.out, "--map")
        self.assertEqual((ran.returncode, ran.stdout, ran.stderr), (0, "", "3 of 3 files, 3 written\n"))
        self.assertEqual(self.below(self.out), ["a.js", "a.js.map", "b/c.ts", "b/c.ts.map", "b/e.mjs", "b/e.mjs.map"])
        self.assertEqual(text_of(f"{self.out}/b/c.ts"), "let c: d;\n//# sourceMappingURL=c.ts.map\n")

    def test_patterns_and_extensions(self):
        run("print", f"{self.folder}/src/**/*.ts", f"{self.folder}/src/a.js", "--out-dir", self.out, "--out-ext", ".min.js", "--minify")
        self.assertEqual(self.below(self.out), ["a.min.js", "b/c.min.js"])
        shutil.rmtree(self.out)
        run("print", f"{self.folder}/src", "--out-dir", self.out, "--ext", "txt,.mjs")
        self.assertEqual(self.below(self.out), ["b/e.mjs", "i.txt"])

    def test_one_fault_does_not_stop_the_others(self):
        self.write("src/b/d.js", "a = )")
        for words in ((), ("-j", "3")):
            ran = run("print", f"{self.folder}/src", f"{self.folder}/nix.js", "--out-dir", self.out, *words)
            self.assertEqual((ran.returncode, ran.stdout), (1, ""))
            told = f"{self.folder}/src/b/d.js:1:5: Unexpected token\n  1 | a = )\n    |     ^\n{self.folder}/nix.js: no such file\n"
            self.assertEqual(ran.stderr, f"{told}5 of 5 files, 2 of them with faults, 3 written\n")
            self.assertEqual(self.below(self.out), ["a.js", "b/c.ts", "b/e.mjs"])
            shutil.rmtree(self.out)

    def test_a_program_that_dies_takes_one_file_with_it(self):
        dies = write_program(self.folder, "dies", f'while IFS= read -r line; do case "$line" in *let*) kill -9 $$;; *) echo "$line" | {TOP}/out/ecmaprint;; esac; done')
        ran = run("print", f"{self.folder}/src", "--out-dir", self.out, "--program", dies)
        self.assertEqual(self.below(self.out), ["a.js", "b/e.mjs"])
        self.assertEqual((ran.returncode, ran.stderr), (1, f"{dies}: ended by SIGKILL\n3 of 3 files, 1 of them with faults, 2 written\n"))

    def test_a_process_that_dies_takes_one_file_with_it(self):
        dies = write_program(self.folder, "dies", f'while IFS= read -r line; do case "$line" in *let*) kill -9 $PPID; exit;; *) echo "$line" | {TOP}/out/ecmaprint;; esac; done')
        ran = run("print", f"{self.folder}/src", "--out-dir", self.out, "--program", dies, "-j", "2")
        self.assertEqual(self.below(self.out), ["a.js", "b/e.mjs"])
        told = f"{self.folder}/src/b/c.ts: the process that printed it ended by SIGKILL\n3 of 3 files, 1 of them with faults, 2 written\n"
        self.assertEqual((ran.returncode, ran.stderr), (1, told))

    def test_check(self):
        ran = run("print", f"{self.folder}/src", "--check")
        self.assertEqual((ran.returncode, ran.stdout), (1, "".join(f"{self.folder}/src/{name}\n" for name in ("a.js", "b/c.ts", "b/e.mjs"))))
        self.assertEqual(text_of(f"{self.folder}/src/a.js"), "a  =  1")
        self.assertEqual(run("print", f"{self.folder}/src", "--write").returncode, 0)
        self.assertEqual(text_of(f"{self.folder}/src/a.js"), "a = 1;\n")
        ran = run("print", f"{self.folder}/src", "--check")
        self.assertEqual((ran.returncode, ran.stdout), (0, ""))
        ran = run("print", f"{self.folder}/src", "--check", "--out-dir", self.out)
        self.assertEqual((ran.returncode, ran.stdout.split("\n")[0]), (1, f"{self.out}/a.js"))

    def test_texts_that_would_go_to_one_file_or_over_their_source(self):
        self.write("other/a.js", "b")
        for words, told in (
            ([f"{self.folder}/src/a.js", f"{self.folder}/other/a.js", "--out-dir", self.out], f"would both go to {self.out}/a.js"),
            ([f"{self.folder}/src", "--out-dir", f"{self.folder}/src"], "src/a.js: its text would go over it; --write asks for that"),
        ):
            ran = run("print", *words)
            self.assertEqual((ran.returncode, ran.stdout), (2, ""))
            self.assertIn(told, ran.stderr)
        self.assertFalse(os.path.exists(self.out))

    def test_a_file_keeps_its_mode_and_links_lead_to_it(self):
        path = write(self.folder, "a.js", "a")
        os.chmod(path, 0o750)
        os.symlink(path, f"{self.folder}/b.js")
        run("print", "-", "-o", f"{self.folder}/b.js", given="c")
        self.assertEqual((text_of(path), os.stat(path).st_mode & 0o777, os.path.islink(f"{self.folder}/b.js")), ("c;\n", 0o750, True))
        ran = run("print", "-", "-o", "/dev/stdout", given="c")
        self.assertEqual((ran.returncode, ran.stdout), (0, "c;\n"))

    def test_nothing_is_lost_where_no_room_is_left(self):
        out = write(self.folder, "out.js", "before")
        small = lambda: resource.setrlimit(resource.RLIMIT_FSIZE, (4096, 4096))
        ran = subprocess.run([f"{SCRIPTS}/print", "-", "-o", out, "--map"], input="a;\n" * 3000, capture_output=True, text=True, check=False, preexec_fn=small)
        self.assertEqual((ran.returncode, ran.stdout, ran.stderr), (1, "", f"{out}: it would be larger than a file may be here\n"))
        self.assertEqual((text_of(out), [name for name in os.listdir(self.folder) if name != "src"]), ("before", ["out.js"]))

    def test_progress_in_a_terminal(self):
        seen, end = pty.openpty()
        with subprocess.Popen([f"{SCRIPTS}/print", f"{self.folder}/src", "--out-dir", self.out], stderr=end) as ran:
            os.close(end)
            told = b""
            while True:
                try:
                    told += os.read(seen, 1000)
                except OSError:
                    break
        os.close(seen)
        self.assertEqual(ran.returncode, 0)
        self.assertRegex(told, rb"\r\x1b\[K2 of 3 files\r.*\r\x1b\[K3 of 3 files\r\x1b\[K3 of 3 files, 3 written\r\n")


class Watching(unittest.TestCase):
    def wait_for(self, path, text):
        until = time.monotonic() + 60
        while not os.path.exists(path) or text_of(path) != text:
            self.assertLess(time.monotonic(), until, f"{path} isn't {text!r}")
            time.sleep(0.05)

    def test_what_changes_is_printed_again(self):
        with tempfile.TemporaryDirectory() as folder:
            os.makedirs(f"{folder}/src/b")
            write(folder, "src/a.js", "a")
            with subprocess.Popen([f"{SCRIPTS}/print", f"{folder}/src", "--out-dir", f"{folder}/out", "--watch"], stderr=subprocess.PIPE, text=True) as ran:
                self.assertEqual(ran.stderr.readline(), "1 file is watched\n")
                self.assertEqual(text_of(f"{folder}/out/a.js"), "a;\n")
                write(folder, "src/a.js", "b")
                self.wait_for(f"{folder}/out/a.js", "b;\n")
                write(folder, "src/a.js", "b = )")
                self.assertRegex(ran.stderr.readline(), r"^\d\d:\d\d:\d\d .*src/a\.js$")
                self.assertRegex(ran.stderr.readline(), r"^\d\d:\d\d:\d\d .*src/a\.js$")
                self.assertIn("Unexpected token", ran.stderr.readline())
                os.mkdir(f"{folder}/src/new")
                time.sleep(1)
                write(folder, "src/new/c.js", "c")
                self.wait_for(f"{folder}/out/new/c.js", "c;\n")
                ran.send_signal(signal.SIGINT)
                ran.communicate()
            self.assertEqual(text_of(f"{folder}/out/a.js"), "b;\n")


if __name__ == "__main__":
    unittest.main()
