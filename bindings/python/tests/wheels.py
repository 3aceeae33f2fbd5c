"""Tests of what pip makes of the package, by a Python with pip and venv, in a folder of its own, and without a network:
python3 -m unittest discover -s tests -p wheels.py."""

import ast
import email
import importlib.util
import os
import platform
import re
import shutil
import subprocess
import sys
import sysconfig
import tarfile
import tempfile
import unittest
import venv
import zipfile
from pathlib import Path

ROOT = Path(__file__).resolve().parents[3]
BOARD = Path("bindings/python/tests/files/board.json")
# The processors that the release is for, each with the version of glibc that its library needs.
GLIBC = {"x86_64": 34, "aarch64": 34}
PROCESSOR = platform.machine()
TAGS = ("py3-none-manylinux_2_%d_%s", "py3-none-musllinux_1_2_%s")
HOOK = "python -I -m promql.hook"
BUILT = ("libpromql.so", "_native.abi3.so")
try:
    import ruamel.yaml  # noqa: F401
    import setuptools
    import wheel as package_wheel  # noqa: F401

    HAS_SETUPTOOLS = int(setuptools.__version__.split(".")[0]) >= 64
except ImportError:
    HAS_SETUPTOOLS = False
# Where a package is, who makes its calls, and a line.
SHOWN = "import promql; print(promql.__file__, promql._caller.__file__, promql.canonical('1+2'), sep='\\n')"


def released():
    """The processors that the release here is for, and the folder of each."""
    return {it: ROOT / "dist" / it for it in GLIBC if (ROOT / "dist" / it / BUILT[0]).is_file()}


def has_compiler():
    """Whether a C compiler builds an extension here."""
    return bool(shutil.which("cc")) and Path(sysconfig.get_path("include"), "Python.h").is_file()


def listing(folder):
    """What is in a folder."""
    return sorted(str(path.relative_to(folder)) for path in folder.rglob("*"))


class Wheels(unittest.TestCase):
    def setUp(self):
        folder = tempfile.TemporaryDirectory()
        self.addCleanup(folder.cleanup)
        self.checkout = Path(folder.name, "checkout")
        self.package = self.checkout / "bindings" / "python"
        skipped = shutil.ignore_patterns("__pycache__")
        shutil.copytree(ROOT / "bindings" / "python", self.package, symlinks=True, ignore=skipped)
        shutil.copytree(ROOT / "dist", self.checkout / "dist")
        for name in "LICENSE", "NOTICE":
            shutil.copy(ROOT / name, self.checkout)
        self.wheels = Path(folder.name, "wheels")
        self.venv = Path(folder.name, "venv")
        # (pip, and what the hooks need, are those of the machine)
        venv.create(self.venv, system_site_packages=True, symlinks=True)
        self.before = listing(self.venv), listing(self.checkout)
        self.variables = {}

    def run_in_venv(self, program, *words, status=0):
        environment = {key: value for key, value in os.environ.items() if not key.startswith(("PIP_", "PYTHON", "PROMQL_"))}
        environment.update(PIP_NO_INDEX="1", PIP_DISABLE_PIP_VERSION_CHECK="1", PYTHONDONTWRITEBYTECODE="1", **self.variables)
        command = [self.venv / "bin" / program, *words]
        ran = subprocess.run(command, cwd=self.checkout, env=environment, stdout=subprocess.PIPE, stderr=subprocess.STDOUT, text=True)
        self.assertIn(ran.returncode, (0, 1) if status is None else (status,), ran.stdout)
        return ran.stdout

    def pip(self, *words, status=0):
        return self.run_in_venv("python", "-m", "pip", *words, status=status)

    def build(self, folder="wheels", source=None, processor=PROCESSOR):
        words = ("--config-settings", f"processor={processor}") if processor != PROCESSOR else ()
        self.pip("wheel", "--no-deps", *words, "--wheel-dir", self.wheels / folder, source or self.package)
        (wheel,) = (self.wheels / folder).iterdir()
        return wheel

    def backend(self):
        """The build backend of the checkout, as a module."""
        spec = importlib.util.spec_from_file_location("build_backend", self.package / "build_backend.py")
        module = importlib.util.module_from_spec(spec)
        spec.loader.exec_module(module)
        return module

    def name(self, processor):
        """The name of a wheel."""
        return f"promql-{self.version()}-{TAGS[0] % (GLIBC[processor], processor)}.musllinux_1_2_{processor}.whl"

    def version(self):
        return re.search(r'^version = "(.*)"$', (self.package / "pyproject.toml").read_text(encoding="utf-8"), re.M)[1]

    def check_runs(self, package, caller):
        """The package that Python finds, who makes its calls, and the program."""
        wanted = [str(package / "__init__.py"), str(caller), "1 + 2"]
        self.assertEqual(self.run_in_venv("python", "-c", SHOWN).splitlines(), wanted)
        self.assertIn(" no errors", self.run_in_venv("promql-rules", "check", BOARD))
        self.run_in_venv("promql-rules", "check", "nowhere.json", status=2)

    def check_uninstalled(self):
        self.pip("uninstall", "--yes", "promql")
        # (pip also takes away the folder that is empty then)
        self.assertEqual(set(listing(self.venv)) - set(self.before[0]), set())
        self.assertEqual(listing(self.checkout), self.before[1])

    def test_files_of_the_wheel(self):
        for processor in released():
            with self.subTest(processor=processor):
                self.check_files(self.build(processor, processor=processor), processor)

    def check_files(self, wheel, processor):
        self.assertEqual(wheel.name, self.name(processor))
        self.assertEqual(wheel.read_bytes(), self.build(f"{processor} again", processor=processor).read_bytes())
        sources = [path for path in (self.package / "promql").rglob("*") if path.suffix not in (".c", ".h", "") or path.name == "py.typed"]
        wanted = {str(path.relative_to(self.package)): path for path in sources}
        wanted.update({f"promql/{name}": self.checkout / "dist" / processor / name for name in BUILT})
        info = f"promql-{self.version()}.dist-info"
        wanted.update({f"{info}/{name}": self.checkout / name for name in ("LICENSE", "NOTICE")})
        with zipfile.ZipFile(wheel) as files:
            made = {f"{info}/{name}" for name in ("METADATA", "WHEEL", "RECORD", "entry_points.txt")}
            self.assertEqual(set(files.namelist()), {*wanted, *made})
            for name, path in wanted.items():
                self.assertEqual(files.read(name), path.read_bytes(), name)
        self.assertEqual(listing(self.checkout), self.before[1])

    def test_metadata(self):
        with zipfile.ZipFile(self.build()) as files:
            info = f"promql-{self.version()}.dist-info"
            metadata, wheel = (email.message_from_bytes(files.read(f"{info}/{name}")) for name in ("METADATA", "WHEEL"))
            scripts = files.read(f"{info}/entry_points.txt").decode()
        for field, wanted in (
            ("Name", "promql"),
            ("Version", self.version()),
            ("License", "Apache-2.0"),
            ("Requires-Python", ">=3.8"),
            ("Provides-Extra", "rules"),
            ("Description-Content-Type", "text/markdown"),
        ):
            self.assertEqual(metadata[field], wanted)
        self.assertEqual(metadata.get_all("License-File"), ["LICENSE", "NOTICE"])
        self.assertIn("License :: OSI Approved :: Apache Software License", metadata.get_all("Classifier"))
        needed = sorted(re.sub("[ ()\"']", "", it) for it in metadata.get_all("Requires-Dist"))
        wanted = ["PyYAML>=6.0;extra==rules", "ruamel.yaml>=0.17.21;extra==rules", "tomli>=2.0;python_version<3.11andextra==rules"]
        self.assertEqual(needed, wanted)
        self.assertTrue(metadata["Project-URL"].startswith("Query language, https://"))
        self.assertEqual(metadata.get_payload().strip(), (self.package / "README.md").read_text(encoding="utf-8").strip())
        self.assertEqual(wheel.get_all("Tag"), [TAGS[0] % (GLIBC[PROCESSOR], PROCESSOR), TAGS[1] % PROCESSOR])
        self.assertEqual(wheel["Root-Is-Purelib"], "false")
        lines = ["[console_scripts]", "promql-rules = promql.__main__:program"]
        self.assertEqual(scripts.splitlines(), lines)

    def test_glibc(self):
        """The tag for glibc is by the symbols that the files need."""
        backend = self.backend()
        for names, version in ((), 17), ((b"GLIBC_2.2.5", b"GLIBC_2.4"), 4), ((b"GLIBC_2.34", b"GLIBC_2.4"), 34):
            file = b"\0" + b"\0".join([*names, b"GCC_3.0", b"nothing GLIBC_2.99", b""])
            self.assertEqual(backend.tags("x86_64", {"a": b"", "b": file}), [TAGS[0] % (version, "x86_64"), TAGS[1] % "x86_64"])
        if shutil.which("objdump"):
            for processor, folder in released().items():
                words = ["objdump", "-p", *(folder / name for name in BUILT)]
                said = subprocess.run(words, stdout=subprocess.PIPE, check=True, text=True).stdout
                self.assertEqual(max(int(it) for it in re.findall(r" GLIBC_2\.(\d+)", said)), GLIBC[processor])

    @unittest.skipIf(sys.version_info < (3, 11), "there is no tomllib")
    def test_reading_the_project(self):
        import tomllib

        text = (self.package / "pyproject.toml").read_text(encoding="utf-8")
        self.assertEqual(self.backend().read_project(), tomllib.loads(text)["project"])

    def test_syntax(self):
        """What is installed, and what builds it, has the syntax of Python 3.8."""
        files = [self.package / "build_backend.py", *(self.package / "promql").rglob("*.py")]
        self.assertGreater(len(files), 60)
        for path in files:
            with self.subTest(path=path):
                ast.parse(path.read_bytes(), str(path), feature_version=(3, 8))

    def test_install_and_uninstall(self):
        self.pip("install", "--no-deps", self.build())
        (package,) = self.venv.glob("lib/python*/site-packages/promql")
        self.check_runs(package, package / BUILT[1])
        # (the machine's other packages may lack something)
        self.assertNotIn("promql", self.pip("check", status=None))
        self.check_uninstalled()

    def test_install_from_the_checkout(self):
        self.pip("install", self.package)
        self.assertIn("Location: ", self.pip("show", "promql"))
        self.check_uninstalled()

    def test_install_from_sources(self):
        """The source distribution makes the wheel that the checkout makes."""
        self.wheels.mkdir()
        name = self.backend().build_sdist(str(self.wheels))
        text = (self.wheels / name).read_bytes()
        self.assertEqual((self.backend().build_sdist(str(self.wheels)), (self.wheels / name).read_bytes()), (name, text))
        with tarfile.open(self.wheels / name) as archive:
            top = name[: -len(".tar.gz")]
            wanted = {f"{top}/made/{it}/{file}" for it in released() for file in BUILT}
            self.assertEqual({it for it in archive.getnames() if it.endswith(".so")}, wanted)
        for processor in released():
            made = self.build(processor, self.wheels / name, processor)
            self.assertEqual(made.read_bytes(), self.build(f"{processor} of the checkout", processor=processor).read_bytes())
        self.pip("install", self.wheels / name)
        (package,) = self.venv.glob("lib/python*/site-packages/promql")
        self.check_runs(package, package / BUILT[1])
        self.check_uninstalled()

    def test_compiled_extension(self):
        """Where no extension was made, the C compiler makes it; where that fails, ctypes makes the calls."""
        (self.checkout / "dist" / PROCESSOR / BUILT[1]).unlink()
        self.before = self.before[0], listing(self.checkout)
        ways = [("false", "_library.py"), ("/nowhere/cc", "_library.py")] + [("cc", BUILT[1])] * has_compiler()
        for compiler, caller in ways:
            with self.subTest(compiler=compiler):
                self.variables = {"CC": compiler}
                said = self.pip("install", "--verbose", self.package)
                self.assertEqual("the extension is not built, so calls are made by ctypes" in said, caller != BUILT[1], said)
                (package,) = self.venv.glob("lib/python*/site-packages/promql")
                self.check_runs(package, package / caller)
                self.check_uninstalled()

    def test_other_processor(self):
        said = self.pip("wheel", "--no-deps", "--config-settings", "processor=riscv64", self.package, status=1)
        there = " and ".join(sorted(released()))
        self.assertIn(f"promql: no release of the library is for the processor riscv64: there are those for {there} in ", said)
        self.assertNotIn("Traceback", said)
        for other in set(released()) - {PROCESSOR}:
            self.assertIn("not a supported wheel on this platform", self.pip("install", self.build(processor=other), status=1))

    def test_wheels_for_all(self):
        words = [self.package / "make_wheels.sh", self.wheels]
        environment = {**os.environ, "PYTHON": str(self.venv / "bin" / "python"), "PYTHONDONTWRITEBYTECODE": "1"}
        ran = subprocess.run(words, env=environment, stdout=subprocess.PIPE, stderr=subprocess.STDOUT, text=True)
        self.assertEqual(ran.returncode, 0, ran.stdout)
        wanted = {self.name(it) for it in released()}
        self.assertEqual({path.name for path in self.wheels.iterdir()}, wanted | {f"promql-{self.version()}.tar.gz"})
        self.assertEqual(listing(self.checkout), self.before[1])

    @unittest.skipUnless(HAS_SETUPTOOLS, "there is no setuptools of 64 or later, no wheel, or no reader of YAML")
    def test_hooks(self):
        """What pre-commit installs: the folder of the repository, and what the hooks name beside it."""
        hooks = (ROOT / ".pre-commit-hooks.yaml").read_text(encoding="utf-8")
        names = set(re.findall(r"additional_dependencies: \[\"(.*)\"\]", hooks))
        self.assertEqual((names, hooks.count("additional_dependencies")), ({"./bindings/python[rules]"}, hooks.count(f"entry: {HOOK} ")))
        shutil.copy(ROOT / "pyproject.toml", self.checkout)
        self.pip("install", "--no-build-isolation", ".", *names)
        (self.checkout / "argparse.py").write_text("raise SystemExit('this is no module of Python')", encoding="utf-8")
        self.assertIn("no errors", self.run_in_venv(*HOOK.split(), "check", BOARD))
        rules = self.checkout / "-rules.yml"
        rules.write_text("groups: [{name: a, rules: [{alert: B, expr: up}]}]\n", encoding="utf-8")
        self.assertIn("./-rules.yml: 1 rule, no errors", self.run_in_venv(*HOOK.split(), "check", "-rules.yml"))

    def test_editable(self):
        self.pip("install", "--editable", self.package)
        self.check_runs(self.package / "promql", self.checkout / "dist" / PROCESSOR / BUILT[1])
        module = self.package / "promql" / "added.py"
        module.write_text("ADDED = 1\n", encoding="utf-8")
        self.assertEqual(self.run_in_venv("python", "-c", "from promql.added import ADDED; print(ADDED)"), "1\n")
        module.unlink()
        self.check_uninstalled()

    def test_nothing_was_built(self):
        shutil.rmtree(self.checkout / "dist")
        said = self.pip("wheel", "--no-deps", "--wheel-dir", self.wheels, self.package, status=1)
        self.assertIn(f"no release of the library is for the processor {PROCESSOR}: there are those for none in ", said)


if __name__ == "__main__":
    sys.exit(unittest.main())
