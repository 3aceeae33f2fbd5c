"""python -m promql.hook COMMAND ..: what .pre-commit-hooks.yaml calls. It is `promql-rules`, for names of files that may look like options."""

from __future__ import annotations

import os
import sys
from typing import List

from .__main__ import program
from .documents import is_read


def as_files(words: List[str]) -> List[str]:
    """The arguments, of which a file whose name looks like an option is written so that it is none. (Options of a configuration may
    be in the place of the `--` that ends them.)"""
    return [f"./{word}" if word.startswith("-") and is_read(word) and os.path.isfile(word) else word for word in words]


if __name__ == "__main__":
    sys.argv[1:] = as_files(sys.argv[1:])
    sys.exit(program())
