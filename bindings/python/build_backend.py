"""Builds the package for pip: the build backend of pyproject.toml (PEP 517, and PEP 660 for --editable). It imports nothing but Python's
own library, so pip has nothing to fetch.

A wheel is for one processor, that of this machine or of `--config-settings processor=NAME`. It has the library that bin/release made for
it, and the extension: the one that was made, or one that is compiled here. Where neither is to be had it says so, and ctypes makes the
calls. A source distribution has what was made for each processor.
"""

import ast
import base64
import gzip
import hashlib
import io
import os
import platform
import re
import shlex
import subprocess
import sys
import sysconfig
import tarfile
import tempfile
import time
import zipfile
from pathlib import Path
from typing import Any, Dict, Iterable, Iterator, List, Mapping, NoReturn, Optional

HERE = Path(__file__).resolve().parent
LIBRARY, EXTENSION, HEADER = "libpromql.so", "_native.abi3.so", "promql.h"
LICENSES = ("LICENSE", "NOTICE")
# The same files make the same wheel: no time of theirs is in it, but this one, in seconds.
TIME = int(os.environ.get("SOURCE_DATE_EPOCH", "1767225600"))
Settings = Optional[Mapping[str, Any]]


def fail(message: str) -> NoReturn:
    sys.exit(f"promql: {message}")


# ---- what a wheel is made of


def made() -> Path:
    """The folder of what bin/release made: that of a source distribution, or in a checkout its dist/."""
    own = HERE / "made"
    return own if own.is_dir() else HERE.parents[1] / "dist"


def processors() -> List[str]:
    return sorted(path.parent.name for path in made().glob(f"*/{LIBRARY}"))


def processor(settings: Settings) -> str:
    """The processor that a wheel is for."""
    name = str((settings or {}).get("processor") or platform.machine())
    if name not in processors():
        known = " and ".join(processors()) or "none"
        fail(f"no release of the library is for the processor {name}: there are those for {known} in {made()}")
    return name


def sources() -> Iterator[Path]:
    """The files of the package that a wheel has, in order."""
    for path in sorted((HERE / "promql").rglob("*")):
        if path.suffix == ".py" or path.name == "py.typed" or path.parent.name == "static":
            yield path


def c_sources(suffix: str) -> List[Path]:
    """The sources of the extension with this suffix, in order."""
    return sorted((HERE / "promql").glob(f"_native*{suffix}"))


def compiled_extension() -> Optional[bytes]:
    """The extension as a C compiler of this machine makes it, or None where it does not."""
    headers = sysconfig.get_path("include")
    compiler = shlex.split(os.environ.get("CC") or sysconfig.get_config_var("CC") or "cc")
    with tempfile.TemporaryDirectory() as folder:
        to = Path(folder, EXTENSION)
        # (where functions are hidden, headers of Python 3.8 do not show the one that it looks for)
        words = ["-std=c11", "-O2", "-fPIC", "-shared", f"-I{headers}", f"-I{made()}", "-o", str(to)]
        try:
            ran = subprocess.run([*compiler, *words, *map(str, c_sources(".c"))], stdout=subprocess.PIPE, stderr=subprocess.STDOUT)
            said = f"{compiler[0]} ends with {ran.returncode}\n{ran.stdout.decode(errors='replace')[:2000]}"
        except OSError as error:
            said = str(error)
        if to.is_file():
            return to.read_bytes()
    print(f"promql: the extension is not built, so calls are made by ctypes: {said}", file=sys.stderr)
    return None


def built(name: str) -> Dict[str, bytes]:
    """The library and the extension for a processor."""
    files = {LIBRARY: (made() / name / LIBRARY).read_bytes()}
    extension: Optional[bytes] = None
    if (made() / name / EXTENSION).is_file():
        extension = (made() / name / EXTENSION).read_bytes()
    elif name == platform.machine():
        extension = compiled_extension()
    if extension is not None:
        files[EXTENSION] = extension
    return files


def tags(name: str, files: Mapping[str, bytes]) -> List[str]:
    """The tags of a wheel: any Python 3, since ctypes serves those in which the extension does not load, with glibc from the version on of
    which these files name a symbol, or with musl, which has all that they call and looks at no version."""
    versions = [int(it) for file in files.values() for it in re.findall(rb"\0GLIBC_2\.(\d+)", file)]
    return [f"py3-none-{it}_{name}" for it in (f"manylinux_2_{max(versions, default=17)}", "musllinux_1_2")]


# ---- what pyproject.toml says


def read_project() -> Dict[str, Any]:
    """The table `project` of pyproject.toml and those below it, as far as they are written there: texts, and lists and tables of them."""
    table: Dict[str, Any] = {}
    project: Dict[str, Any] = {}
    text = (HERE / "pyproject.toml").read_text(encoding="utf-8")
    for header, key, value in re.findall(r'^(?:\[([\w.-]+)\]|("[^"\n]*"|[\w-]+) = (\[\n.*?^\]|[^\n]*))$', text, re.M | re.S):
        if header:
            first, _, rest = header.partition(".")
            table = (project.setdefault(rest, {}) if rest else project) if first == "project" else {}
        else:
            # (such a text is also one of Python, but for the sign between a key and its value)
            table[key.strip('"')] = ast.literal_eval(re.sub(r"^\{ (\w+) = ", r'{ "\1": ', value))
    return project


def requirements(project: Mapping[str, Any]) -> Iterator[str]:
    for extra, needed in project["optional-dependencies"].items():
        yield f"Provides-Extra: {extra}"
        for it in needed:
            name, _, marker = (part.strip() for part in it.partition(";"))
            yield f"Requires-Dist: {name} ; {marker + ' and ' if marker else ''}extra == '{extra}'"


def metadata() -> str:
    project = read_project()
    lines = ["Metadata-Version: 2.1", f"Name: {project['name']}", f"Version: {project['version']}", f"Summary: {project['description']}"]
    lines += [f"License: {project['license']['text']}", f"Keywords: {','.join(project['keywords'])}"]
    lines += [f"Project-URL: {name}, {address}" for name, address in project["urls"].items()]
    lines += [f"Classifier: {it}" for it in project["classifiers"]]
    lines += [f"Requires-Python: {project['requires-python']}", "Description-Content-Type: text/markdown"]
    lines += [f"License-File: {it}" for it in LICENSES]
    lines += requirements(project)
    return "\n".join([*lines, "", (HERE / project["readme"]).read_text(encoding="utf-8")])


def entry_points() -> str:
    return "\n".join(["[console_scripts]", *(f"{name} = {it}" for name, it in read_project()["scripts"].items()), ""])


def name_and_version() -> str:
    project = read_project()
    return f"{project['name']}-{project['version']}"


# ---- a wheel


def info_files(wheel_tags: Iterable[str]) -> Dict[str, bytes]:
    """The files of the folder .dist-info of a wheel, but for its RECORD."""
    lines = ["Wheel-Version: 1.0", "Generator: promql", "Root-Is-Purelib: false", *(f"Tag: {it}" for it in wheel_tags), ""]
    texts = {"METADATA": metadata(), "WHEEL": "\n".join(lines), "entry_points.txt": entry_points()}
    files = {name: text.encode() for name, text in texts.items()}
    files.update({name: (HERE / name).read_bytes() for name in LICENSES})
    return {f"{name_and_version()}.dist-info/{name}": text for name, text in files.items()}


def record_line(name: str, text: bytes) -> str:
    digest = base64.urlsafe_b64encode(hashlib.sha256(text).digest()).rstrip(b"=").decode()
    return f"{name},sha256={digest},{len(text)}\n"


def write_wheel(folder: str, wheel_tags: List[str], files: Mapping[str, bytes]) -> str:
    """Writes a wheel of these files into the folder, and returns its name."""
    whole = {**files, **info_files(wheel_tags)}
    record = f"{name_and_version()}.dist-info/RECORD"
    whole[record] = ("".join(record_line(*it) for it in whole.items()) + f"{record},,\n").encode()
    # (a name has platforms that have the rest in common side by side)
    common = wheel_tags[0].rpartition("-")[0]
    name = f"{name_and_version()}-{common}-{'.'.join(it.rpartition('-')[2] for it in wheel_tags)}.whl"
    # (a time before 1980 has no place in such a file)
    moment = time.gmtime(max(TIME, 315532800))[:6]
    with zipfile.ZipFile(Path(folder, name), "w", zipfile.ZIP_DEFLATED) as wheel:
        for path, text in whole.items():
            entry = zipfile.ZipInfo(path, moment)
            entry.compress_type = zipfile.ZIP_DEFLATED
            entry.external_attr = (0o100755 if path.endswith(".so") else 0o100644) << 16
            wheel.writestr(entry, text)
    return name


def build_wheel(folder: str, config_settings: Settings = None, metadata_directory: Optional[str] = None) -> str:
    name = processor(config_settings)
    files = built(name)
    whole = {str(path.relative_to(HERE)): path.read_bytes() for path in sources()}
    whole.update({f"promql/{it}": text for it, text in files.items()})
    return write_wheel(folder, tags(name, files), whole)


def build_editable(folder: str, config_settings: Settings = None, metadata_directory: Optional[str] = None) -> str:
    """The package stays in the checkout, and uses what is in its dist/."""
    name = processor(config_settings)
    library = {LIBRARY: (made() / name / LIBRARY).read_bytes()}
    return write_wheel(folder, tags(name, library), {"promql_checkout.pth": f"{HERE}\n".encode()})


def prepare_metadata_for_build_wheel(folder: str, config_settings: Settings = None) -> str:
    processor(config_settings)
    for path, text in info_files(["py3-none-any"]).items():
        Path(folder, path).parent.mkdir(exist_ok=True)
        Path(folder, path).write_bytes(text)
    return f"{name_and_version()}.dist-info"


prepare_metadata_for_build_editable = prepare_metadata_for_build_wheel


# ---- a source distribution


def files_of_sources() -> Dict[str, bytes]:
    paths = [HERE / name for name in ("pyproject.toml", Path(__file__).name, "README.md", *LICENSES)]
    paths += [*sources(), *c_sources(".c"), *c_sources(".h")]
    files = {str(path.relative_to(HERE)): path.read_bytes() for path in paths}
    for name in [HEADER, *(f"{it}/{file}" for it in processors() for file in (LIBRARY, EXTENSION))]:
        if (made() / name).is_file():
            files[f"made/{name}"] = (made() / name).read_bytes()
    return files


def build_sdist(folder: str, config_settings: Settings = None) -> str:
    name, archived = f"{name_and_version()}.tar.gz", io.BytesIO()
    with tarfile.open(fileobj=archived, mode="w", format=tarfile.PAX_FORMAT) as archive:
        for path, text in {"PKG-INFO": metadata().encode(), **files_of_sources()}.items():
            entry = tarfile.TarInfo(f"{name_and_version()}/{path}")
            entry.size, entry.mtime, entry.mode = len(text), TIME, 0o755 if path.endswith(".so") else 0o644
            archive.addfile(entry, io.BytesIO(text))
    Path(folder, name).write_bytes(gzip.compress(archived.getvalue(), mtime=TIME))
    return name
