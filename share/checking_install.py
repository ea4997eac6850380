"""The checks of share/install and share/package: what is installed runs from where it is, and its pages and completions say what --help says."""
import gzip
import pathlib
import re
import shutil
import subprocess
import tempfile
import unittest

import installing
from checking import EXAMPLES, TOP, Case, call, want, with_assembler, with_devices, with_linter, with_program

SHARE = TOP / "share"
# what a shell in a clean root has
CLEAN = {"PATH": "/usr/bin:/bin", "HOME": "/nonexistent"}
NAMES = [installing.name_of(tool) for tool in (*installing.PROGRAMS, *installing.TOOLS)]


def missing(*tools):
    """Which of these programs of the system aren't there."""
    return ", ".join(tool for tool in tools if shutil.which(tool) is None)


@with_program
@with_assembler
@with_devices
@with_linter
class Install(Case):
    """share/install, once for all tests."""

    @classmethod
    def setUpClass(cls):
        held = tempfile.TemporaryDirectory()
        cls.addClassCleanup(held.cleanup)
        cls.prefix = pathlib.Path(held.name, "prefix")
        done = call([SHARE / "install", cls.prefix])
        want((done.returncode, done.stderr), (0, b""), "share/install")

    def installed(self, name, *words, folder=EXAMPLES):
        """What became of a call of an installed tool."""
        return call([self.prefix / "bin" / name, *words], folder, env=CLEAN)

    def test_runs(self):
        """What is installed runs as in the clone, and says that it is."""
        self.want(sorted(file.name for file in (self.prefix / "bin").iterdir()), sorted(NAMES), "the tools")
        for name, words in (("muen", ["map", "one_subject.json"]), ("muen_asm", ["hex", "one_subject/code.asm"]), ("muen_lint", ["one_subject.json"]), ("muen_dma", ["map", "device_domains.json"]), ("muen-look", ["names", "gateway.json", "black"])):
            here = call([SHARE / name.removeprefix("muen-"), *words])
            done = self.installed(name, *words)
            self.want((done.returncode, done.stdout.replace(b"muen-look", b"share/look"), done.stderr), (0, here.stdout, b""), f"{name} {words}")
        self.want(re.fullmatch(rb"muen of the sources [0-9a-f]{16}, (un)?proved\n", self.installed("muen", "--version").stdout) is not None, True, "--version")

    def test_own_system(self):
        """A system is laid out and tried without the clone."""
        with tempfile.TemporaryDirectory() as folder:
            self.want(self.installed("muen-new", "mine", folder=folder).returncode, 0, "muen-new")
            done = self.installed("muen-try", "mine", folder=folder)
            self.want((done.returncode, done.stdout.splitlines()[-1]), (0, b"all holds"), done.stdout.decode())

    def test_pages(self):
        """Each tool has a page, which says what its --help says, and no tool of a clone is named in either."""
        for name in NAMES:
            page = gzip.decompress((self.prefix / "share/man/man1" / f"{name}.1.gz").read_bytes()).decode()
            words = re.sub(r"\\&|\\(?=-)", "", page).replace("\\e", "\\").split()
            helped = self.installed(name, "--help").stdout.decode()
            self.want([word for word in helped.split() if word not in words and not word.startswith("-")][:3], [], f"words of --help that aren't in the page of {name}")
            self.want(re.findall(r"share/(?:look|try|new|answer|muen)\b(?!/)", page + helped), [], f"tools of a clone in the page of {name}")

    @unittest.skipIf(missing("man", "groff"), "man and groff aren't there")
    def test_man(self):
        """The pages are such that man has nothing to say."""
        for page in sorted((self.prefix / "share/man/man1").iterdir()):
            done = call(["man", "--warnings", "-l", page], env={**CLEAN, "MANWIDTH": "120", "LC_ALL": "C.UTF-8"})
            self.want((done.returncode, done.stderr), (0, b""), page.name)

    def test_bash(self):
        """Completions for bash: commands, forms, and the options of a form."""
        file = self.prefix / "share/bash-completion/completions/muen-look"
        for line, wanted in (("muen ver", "verify"), ("muen_asm li", "lines"), ("muen_dma li", "lines"), ("muen-look cov", "coverage"), ("muen-look trace --f", "--from"), ("muen-try --w", "--watch")):
            name, *words = line.split()
            script = f'. {file}; COMP_WORDS=({line}); COMP_CWORD={len(words)}; _muen {name}; echo "${{COMPREPLY[@]}}"'
            self.want(call(["bash", "-c", script], self.prefix / "bin").stdout.decode().split(), [wanted], line)

    @unittest.skipIf(missing("zsh"), "zsh isn't there")
    def test_zsh(self):
        """Completions for zsh are such that it reads them."""
        self.want(call(["zsh", "-n", self.prefix / "share/zsh/vendor-completions/_muen"]).returncode, 0, "the status")

    def test_words(self):
        """What isn't asked for so is told."""
        for words, line in (([], "it takes one word, a folder; --help says more"), (["/dev/null/below"], "/dev/null/below/lib/muen: Not a directory")):
            done = call([SHARE / "install", *words])
            self.want((done.returncode, done.stdout, done.stderr.decode()), (1, b"", f"share/install: {line}\n"), line)


@with_program
@with_assembler
@with_devices
@with_linter
@unittest.skipIf(missing("dpkg", "dpkg-deb", "strip"), "dpkg-deb and strip aren't there")
class Package(Case):
    """share/package."""

    def test_package(self):
        """The package has no error of lintian, and what it puts into a clean root runs there."""
        with tempfile.TemporaryDirectory() as folder:
            file, root = pathlib.Path(folder, "muen.deb"), pathlib.Path(folder, "root")
            done = call([SHARE / "package", file])
            want((done.returncode, done.stdout.decode(), done.stderr), (0, f"{file}\n", b""), "share/package")
            self.want(call(["dpkg-deb", "-x", file, root]).returncode, 0, "dpkg-deb -x")
            self.want(call([root / "usr/bin/muen-try", "one_subject", "--output", folder + "/out"], env=CLEAN).stdout.splitlines()[-1:], [b"all holds"], "muen-try in the root")
            with self.subTest("lintian"):
                if missing("lintian"):
                    self.skipTest("lintian isn't there")
                done = subprocess.run(["lintian", "--fail-on", "error", "--allow-root", file], capture_output=True, text=True, timeout=120, check=False)
                want(done.returncode, 0, f"the status of lintian: {done.stdout}")
