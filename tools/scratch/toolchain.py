"""A toolchain that proves nothing: it prints lines and records its calls. `install` puts it into a scratch repository."""

import os

from scratch import put

# The part of the command `rt` that the tools call as a command.
RT = """#!/bin/sh
case $1 in
ci)
    cat {top}/said
    exit "$(cat {top}/status)"
    ;;
doc) echo '{top}/kit/START-HERE.md' ;;
version) echo 'a toolchain' ;;
try) echo "$*" ;;
lib)
    shift
    name=$(basename "$PWD")
    exec {top}/kit/bin/rattle build --crate-name "$name" "$@" -o "out/lib$name.a"
    ;;
test)
    echo "$(basename "$PWD") test" >> {top}/order
    echo 'test result: ok.'
    ;;
*) exit 2 ;;
esac
"""
# The command `rt` as a module.
MODULE = '''
import contextlib
import hashlib
import os
import shutil

KIT = os.path.dirname(os.path.dirname(os.path.abspath(__file__)))
link_or_copy = shutil.copy
processors, free, handles_of = (lambda: 2), (lambda: 1 << 34), (lambda top: ())


class Crate:
    def __init__(self, name, folder, deps, is_static):
        self.name, self.folder, self.deps, self.is_static, self.is_program = name, folder, deps, is_static, name == "mquerier"
        self.rlib = f"{folder}/out/rlib/{name}.rlib"

    def makes_rlib(self):
        return not self.is_program and not self.is_static

    def below(self):
        return list(dict.fromkeys(it for dep in self.deps for it in [*dep.below(), dep]))

    def words(self, flags, as_source=False):
        return ["--crate-name", self.name, "--logic-built", "logic", *["--lib"] * as_source, *flags]

    def text(self):
        files = [f"{at}/{name}" for part in ("src", "specs", "proofs") for at, _, names in os.walk(f"{self.folder}/{part}") for name in names]
        return repr([(os.path.relpath(it, self.folder), open(it).read()) for it in sorted(files)])

    def stamp(self):
        return self.text()

    def count(self, pattern):
        return 0

    def has_tests(self):
        return "#[test]" in self.text()

    def link(self, of, to):
        shutil.copy(f"{self.folder}/{of}", f"{self.folder}/{to}")
        return 0


class Kept:
    def __init__(self, crates):
        self.at, self.rlibs = f"{KIT}/kept", {}

    def key(self, crate):
        return hashlib.sha256((crate.text() + repr([self.rlibs[it.name] for it in crate.below()])).encode()).hexdigest()

    def place(self, crate, tests, key):
        return f"{self.at}/{tests}-{crate.name}-{key}"

    def give(self, crate, tests, key):
        if not os.path.isdir(self.place(crate, tests, key)):
            return False
        shutil.copytree(f"{self.place(crate, tests, key)}/made", f"{crate.folder}/out", dirs_exist_ok=True)
        return True

    @contextlib.contextmanager
    def in_turn(self, crate, tests, key):
        yield False

    def is_built(self, crate):
        self.rlibs[crate.name] = crate.text()


class rtlib:
    RATTLE = f"{KIT}/bin/rattle"
    guarded = staticmethod(lambda: [])
    files_of = staticmethod(lambda folder: [])
    Crate = None

    @staticmethod
    def crates_below(top):
        known = {}
        for line in open(f"{os.path.dirname(top)}/crates.txt"):
            words, colon, named = line.partition("#")[0].partition(":")
            if colon:
                name, *kind = words.split()
                known[name] = name, bool(kind), [it for it in named.split()]
        made = {}

        def crate(name):
            if name not in made:
                _, is_static, named = known[name]
                made[name] = Crate(name, f"{top}/{name}", [crate(it) for it in named if it in known], is_static)
            return made[name]

        return [crate(it) for it in known]
'''
# The compiler. Its output for a wrong function is in says/, under the function's name, its
# answers, and the fields that the last answer names.
RATTLE = '''#!/usr/bin/env python3
import json
import os
import re
import sys

TOP, (verb, *words) = "{top}", sys.argv[1:]
GOALS = "cell-requires a-requires b-requires returns returns-clause-it returns-in-y-clause-it invariant_of-self".split()


def after(flag):
    return words[words.index(flag) + 1] if flag in words else None


def put(file, text):
    os.makedirs(os.path.dirname(file), exist_ok=True)
    open(file, "w").write(text)


name, to, source = after("--crate-name"), after("-o"), "src/main.rt" if os.path.exists("src/main.rt") else "src/lib.rt"
text = open(source).read() if os.path.exists(source) else ""
functions = re.findall(r"fn (\\w+)", text)
if "--generated" in words:
    for path in [path.split("::")[-1] for flag, path in zip(words, words[1:]) if flag == "--start"]:
        put(f"{{after('--generated')}}/Rattle-{{name}}-proofs/{{path}}/Goals.antt", "".join(f"abbrev pub {{it}} : Type 2\\n" for it in GOALS))
    sys.exit()
if "--only" in words:
    asked = [path.split("::")[-1] for flag, path in zip(words, words[1:]) if flag == "--only"]
    if asked == [""]:
        ill = [at for at, line in enumerate(text.splitlines(), 1) if "ill typed" in line]
        print("".join(f"src/lib.rt:{{at}}:5: error[mismatched-types]: ill\\n" for at in ill), end="")
        print("rattle: error: elsewhere\\n" * ("stray" in text) + "only=0 proved=0\\n" * ("silent" not in text), end="")
        with open(f"{{TOP}}/order", "a") as order:
            order.write(f"{{name}} compiled{{' by sources' * ('--lib' in words)}}\\n")
        sys.exit()
    with open(f"{{TOP}}/checks", "a") as checks:
        checks.write(f"{{len(asked)}} {{os.path.isdir('out/incremental')}}\\n")
    for it in asked:
        file = next((f for f in (f"proofs/{{it}}/Answers.antt", f"proofs/+{{it}}/Answers.antt") if os.path.exists(f)), None)
        answers = open(file).read() if file else ""
        names, fields = re.findall(r"pub (\\S+)", answers), re.findall(r"c\\.(\\S+)", answers.rpartition("pub ")[2])
        said = f"{{TOP}}/says/{{it}}/{{':'.join([','.join(names), *fields]) or 'none'}}"
        said += " alone" * (len(asked) == 1 and os.path.exists(f"{{said}} alone"))
        if os.path.exists(said) and open(f"{{TOP}}/says/{{it}}/wrong").read() in text:
            print(open(said).read(), end="")
        put(f"out/incremental/one/Rattle-{{name}}-proofs.{{it}}.Answers.oantt", "")
    print(f"only={{len(asked)}} holes=1")
    sys.exit(1)
with open(f"{{TOP}}/order", "a") as order:
    order.write(" ".join([name, verb, *([after("--target")] if "--target" in words else [])]) + "\\n")
if os.path.exists("fails") or "// fails" in text:
    print("src/lib.rt:3:1: error: the goal is open\\nfn right::f: not proved\\nlogic=not-proved")
    sys.exit(1)
print("checked a, 1 of 2\\nfn a: proved\\nlogic=proved functions=2 sum=0")
if to and verb == "build" and to.endswith(".rlib"):
    put(f"{{to}}/toolchain/mir.json", json.dumps([[f"{{name}}::{{it}}", {{"body": [it]}}] for it in functions]))
elif to and verb == "build":
    put(to, f"#!/bin/sh\\n# built {{name}}\\n")
    os.chmod(to, 0o755)
elif to:
    os.makedirs(to, exist_ok=True)
'''
LINKS = """#!/bin/sh
echo "linked $7" > "$6"
"""


def install(top):
    """Puts the toolchain into a repository, on the path of `run`."""
    put(f"{top}/path/rt", RT.format(top=top), 0o755)
    put(f"{top}/kit/bin/rt", MODULE)
    put(f"{top}/kit/bin/rattle", RATTLE.format(top=top), 0o755)
    put(f"{top}/kit/bin/rattle-link", LINKS, 0o755)
    os.makedirs(f"{top}/kit/kept", exist_ok=True)
