"""Who makes the calls of the library: the extension of _native.c where it loads, and else ctypes."""

from __future__ import annotations

import os
from importlib import import_module
from importlib.machinery import EXTENSION_SUFFIXES, ExtensionFileLoader
from importlib.util import module_from_spec, spec_from_loader
from typing import TYPE_CHECKING, Any, cast

from ._answers import library_path, packaged

SUFFIX = ".abi3.so"


def extension() -> Any:
    """The extension of the variable PROMQL_EXTENSION, that of the package, or in a checkout that of its dist/; None where it does not load
    in this Python, or where the variable is empty."""
    path = os.environ.get("PROMQL_EXTENSION", packaged(f"_native{SUFFIX}"))
    # (a Python without this suffix may open the file, and end the process)
    if not path or SUFFIX not in EXTENSION_SUFFIXES:
        return None
    name = f"{__package__}._native"
    loader = ExtensionFileLoader(name, path)
    spec = spec_from_loader(name, loader)
    try:
        module: Any = module_from_spec(cast(Any, spec))
        loader.exec_module(module)
        module.load(os.fsencode(library_path()))
    except ImportError:
        return None
    return module


if TYPE_CHECKING:
    from . import _library

    calls = _library
else:
    calls = extension() or import_module("._library", __package__)
