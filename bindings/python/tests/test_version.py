"""The version of the package."""

import importlib.metadata
import re

import mquerier


def test_the_version_has_the_commit():
    assert re.fullmatch(r"\d+\.\d+\.\d+(\+\d{8}\.g?[0-9a-f]{8})?", mquerier.__version__)
    assert importlib.metadata.version("mquerier") == mquerier.__version__
