"""The examples of the page run as they stand, and print what it says."""

import re
import subprocess
import sys

import pytest
from conftest import TOP

PAGE = open(f"{TOP}/bindings/python/README.md", encoding="utf-8").read()
PROGRAMS = re.findall(r"```python\n([^`]*)```\n((?:\n(?:    .*\n)+)?)", PAGE)


def ran(*words, at=TOP):
    return subprocess.run([sys.executable, *words], cwd=at, stdout=subprocess.PIPE, stderr=subprocess.STDOUT, text=True, check=False)


def unindented(text):
    return re.sub("^    ", "", text.lstrip("\n"), flags=re.MULTILINE)


@pytest.mark.parametrize("program, said", [it for it in PROGRAMS if it[1]], ids=["first", "vector"])
def test_program_prints_what_the_page_says(program, said):
    assert ran("-c", program).stdout == unindented(said)


def test_the_fixture(tmp_path):
    programs = [program for program, said in PROGRAMS if not said]
    assert len(programs) == 1
    (tmp_path / "test_it.py").write_text(programs[0], encoding="utf-8")
    it = ran("-m", "pytest", "-q", "-p", "no:cacheprovider", "test_it.py", at=tmp_path)
    assert "1 passed" in it.stdout, it.stdout


def test_the_command():
    words, said = re.search(r"\$ python (-m mquerier .*)\n((?:    .*\n)+)", PAGE).groups()
    first = unindented(said).splitlines()[0]
    assert ran(*words.split()).stdout.splitlines()[0] == first
