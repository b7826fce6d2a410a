"""Reads the dialogues of compare/talks: scripts, with the steps of the peers that they speak to."""
import os
import re
from dataclasses import dataclass, field

EXAMPLES = f"{os.path.dirname(os.path.realpath(__file__))}/../examples"
# The files of an example that its script has nothing to do with.
NOT_RUN = {"README.md", "record", "script.exp", "status", "stdout", "story"}
VERBS = {"serves", "says", "leaves", "hears", "ends", "dies"}
PARTS = {"peers", "script", "here", "logged"}
SIGNS = {"n": b"\n", "t": b"\t", "r": b"\r", "0": b"\0", "\\": b"\\"}
# A pattern is sought in what a peer says, once it came, up to its end.
SOUGHT = ["log_user 0", "start a", "expect -notransfer ?*", "unset expect_out"]
SOUGHT += ["expect -indices WORDS {told found} eof {told end; exit}", "expect eof {told rest}"]


@dataclass
class Dialogue:
    """Steps are triples of a peer, a verb and bytes; servers are peers that are called, and not started; files lie
    beside the script. Where both programs differ by a rule, `here` is what this project's program shows by it, and
    `logged` what it writes to the file `log`, if that is said."""

    title: str
    script: str
    steps: list = field(default_factory=list)
    servers: list = field(default_factory=list)
    files: list = field(default_factory=list)
    rule: str = ""
    here: str = ""
    logged: str = None

    def watched(self):
        """The file that gets all that comes: the log where it is one of everything, or else what is shown."""
        return "log" if re.search(r"log_file -a( -noappend)? log\b", self.script) else "shown"


def bytes_of(text):
    """What a text of a step stands for: \\n, \\t, \\r, \\0, \\\\ and \\xhh are escapes, <<N TEXT>> is N times the text."""
    text = re.sub(r"<<(\d+) (.*?)>>", lambda it: int(it[1]) * it[2], text)
    parts = re.split(r"\\(x[0-9a-f]{2}|[ntr0\\])", text)
    escaped = [SIGNS.get(it) or bytes([int(it[1:], 16)]) for it in parts[1::2]]
    parts = [it.encode("latin-1") for it in parts]
    parts[1::2] = escaped
    return b"".join(parts)


def step_of(line):
    who, verb, *text = line.split(" ", 2)
    if verb not in VERBS:
        raise ValueError(f"no step of a peer: {line}")
    return who, verb, bytes_of("".join(text))


def text_of(lines):
    return "".join(f"{it}\n" for it in lines)


def made(line, parts):
    """The dialogue that a line begins, with the parts that follow it."""
    steps = [step_of(it) for it in parts.get("peers", [])]
    script = parts.get("script", [])
    found = re.fullmatch("expect (.*?) in ?(.*)", line)
    rule = {"rule": "".join(parts.get("rule", [])), "here": text_of(parts.get("here", []))}
    if "logged" in parts:
        rule["logged"] = text_of(parts["logged"])
    if found:
        steps = [("a", "leaves", bytes_of(found[2])), ("a", "ends", b"0")]
        script = [it.replace("WORDS", found[1]) for it in SOUGHT]
    servers = [who for who, verb, _ in steps if verb == "serves"]
    steps = [it for it in steps if it[1] != "serves"]
    return Dialogue(line.removeprefix("dialogue "), text_of(script), steps, servers, **rule)


def example(name):
    """An example of the repository that runs live: its script, with the files beside it."""
    folder = f"{EXAMPLES}/{name}"
    files = [f"{folder}/{it}" for it in sorted(os.listdir(folder)) if it not in NOT_RUN]
    with open(f"{folder}/script.exp", encoding="latin-1") as it:
        return Dialogue(f"example {name}", it.read(), files=files)


def read(path):
    """The dialogues of a file. The lines of a part stand below its name, behind four blanks."""
    found, begun, part = [], [], None
    with open(path, encoding="utf-8") as it:
        lines = it.read().splitlines()
    for line in lines:
        if line.startswith("    ") and part is not None:
            part.append(line[4:])
        elif line.startswith("example "):
            found.append(example(line.removeprefix("example ")))
        elif line.startswith(("dialogue ", "expect ")):
            begun.append((line, {}))
            part = None
        elif line.startswith("rule "):
            begun[-1][1]["rule"] = [line.removeprefix("rule ")]
        elif line.removesuffix(":") in PARTS:
            part = begun[-1][1].setdefault(line.removesuffix(":"), [])
        elif line and not line.startswith("#"):
            raise ValueError(f"{path}: {line}")
    return found + [made(*it) for it in begun]
