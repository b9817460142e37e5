"""The shared library and the program: their place, missing ones and those of another version."""

import os
import shutil

import mquerier
import pytest
from mquerier import _library, _program

NAME = f"libmquerier.so.{_library.VERSION}"
EMPTY = bytes.fromhex("d4c3b2a102000400000000000000000000000400") + b"\1\0\0\0"


@pytest.fixture
def folder(monkeypatch, tmp_path):
    """A folder for libraries and programs, which are looked for anew."""
    for cached in (_library.families, _program.program):
        cached.cache_clear()
    monkeypatch.setenv("MQUERIER_LIB", str(tmp_path))
    monkeypatch.setenv("PATH", f"{tmp_path}:/usr/bin:/bin")
    yield tmp_path
    for cached in (_library.families, _program.program):
        cached.cache_clear()


def why(call):
    with pytest.raises(ImportError) as error:
        call()
    return str(error.value)


def link():
    return mquerier.Link("igmp", "10.0.0.9")


def test_library_of_the_folder(folder):
    shutil.copy(os.path.join(_library.NATIVE, NAME), folder)
    assert link().is_querier


def test_no_library(folder):
    assert why(link).startswith(f"{folder}/{NAME}: ") and why(link).endswith(f"or set MQUERIER_LIB to the folder of {NAME}")
    (folder / NAME).write_text("text")
    assert f"{folder}/{NAME}: " in why(link)


def test_library_of_another_version(folder, monkeypatch):
    shutil.copy(os.path.join(_library.NATIVE, NAME), folder / "libmquerier.so.4")
    monkeypatch.setattr(_library, "VERSION", 4)
    assert why(link) == f"{folder}/libmquerier.so.4 has version 3, and this package is for version 4"


def test_program_of_the_package(folder):
    assert _program.program() == os.path.join(_library.NATIVE, "mquerier")


def test_program_of_the_path(folder, monkeypatch):
    monkeypatch.setattr(_program, "NATIVE", str(folder / "none"))
    assert why(lambda: mquerier.show(EMPTY)).startswith("mquerier is not there. Install the wheel")
    shutil.copy(os.path.join(_library.NATIVE, "mquerier"), folder)
    assert [*mquerier.show(EMPTY)] == [] and _program.program() == str(folder / "mquerier")
    _program.program.cache_clear()
    (folder / "mquerier").write_text("#!/bin/sh\necho mquerier 1.9.0\n")
    assert why(lambda: mquerier.show(EMPTY)) == f"{folder}/mquerier is of another version than this package, 3"
