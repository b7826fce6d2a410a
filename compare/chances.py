"""Random dialogues: random patterns over a few signs, random pieces, branches and bodies. What is made depends on the
seed and the number alone. No rule by which this project and Expect differ is touched, so that both have to agree."""
import random

from talks import Dialogue

SIGNS = ["ab", "abc", "ab", "aAbB", "ab\n", "a*[", "b^$", "a-]", "a\\?", "a\xe9"]
# What a pattern has to have behind a backslash to stand for itself.
SPECIAL = "*?[]^$\\-"
BODIES = [
    "{told NAME}", "{told NAME}", "{told NAME}", "{again NAME}", "{again NAME; puts behind}", "{puts NAME}", "{}", "{break}",
    "{continue}", "{return NAME}", "{error NAME}", "{set x NAME}", "{again NAME -continue_timer}",
]
# These go for the own branches of a dialogue with one peer: a standing one would choose itself within itself.
OWN_BODIES = BODIES + BODIES + [
    "{expect PATTERN {told inner} eof {told NAME}}", "{expect PATTERN {told inner} eof {told NAME}}",
    "{expect ?* {told inner; again NAME} eof {told NAME}}",
]
# A body goes on for a while only, since a branch that transfers nothing is chosen again and again.
AGAIN = """set left 25
proc again {name args} {
    global left
    told $name
    if {[incr left -1] > 0} {eval exp_continue $args}
}
proc ask {script} {
    global expect_out
    eval $script
}
"""


class Chances:
    def __init__(self, seed, number):
        self.random = random.Random(f"{seed} {number}")
        self.signs = self.one_of(SIGNS)
        self.names = 0

    def one_of(self, items):
        return items[self.random.randrange(len(items))]

    def chance(self, one_in):
        return self.random.randrange(one_in) == 0

    def up_to(self, most):
        return range(self.random.randrange(1, most + 1))

    def text(self, most):
        return "".join(self.one_of(self.signs) for _ in self.up_to(most))

    # Patterns

    def literal(self, folded):
        sign = self.one_of(self.signs)
        sign = sign.lower() if folded else sign
        return "\\" + sign if sign in SPECIAL or self.chance(20) and sign.isascii() and sign != "\n" else sign

    def members(self):
        plain = [it for it in self.signs if it not in SPECIAL] or ["a"]
        ends = [self.one_of(plain), self.one_of(plain)]
        return self.one_of([ends[0], "".join(ends), "-".join(ends), "^" + ends[0], "-" + ends[0], ends[0] + ".", "0-9" + ends[1]])

    def item(self, folded):
        kind = self.random.randrange(10)
        if kind < 5:
            return self.literal(folded)
        if kind < 7:
            return "*"
        if kind < 9 or folded:
            return "?"
        return f"[{self.members()}]"

    def glob(self, folded, may_be_empty):
        """A glob. A star does not stand right before a tie to the end, nor does that tie stand alone."""
        items = [self.item(folded) for _ in self.up_to(5)]
        if all(it == "*" for it in items) and not (may_be_empty and self.chance(4)):
            items.append(self.literal(folded))
        ends = "$" if self.chance(6) and items[-1] != "*" else ""
        return "^" * self.chance(6) + "".join(items) + ends

    def pattern(self, may_be_empty=True):
        """A pattern with its flags."""
        folded = self.signs == "aAbB" and self.chance(2)
        flags = "-notransfer " * self.chance(8) + "-indices " * self.chance(2) + "-nocase " * folded
        if self.chance(5):
            text = self.text(3)
            return flags + "-ex " + quoted(text.lower() if folded else text)
        return flags + self.one_of(["", "-gl "]) * (not folded) + quoted(self.glob(folded, may_be_empty))

    # Branches

    def name(self):
        self.names += 1
        return f"n{self.names}"

    def branch(self, bodies, may_be_empty):
        body = self.one_of(bodies).replace("NAME", self.name()).replace("PATTERN", self.pattern(may_be_empty))
        return f"{self.pattern(may_be_empty)} {body}"

    def branches(self, most, bodies, may_be_empty=True):
        return [self.branch(bodies, may_be_empty) for _ in self.up_to(most)]

    def standing(self, ends):
        """The words of a standing list."""
        return self.arguments(self.branches(2, BODIES) * (not ends or self.chance(2)) + [self.end()] * ends)

    def end(self):
        return f"{self.one_of(['eof', 'default'])} {{told {self.name()}}}"

    def arguments(self, branches):
        """Branches as words, or as one argument in braces."""
        if self.chance(2):
            return " ".join(branches)
        return "{\n    " + "\n    ".join(branches) + "\n}"

    # Dialogues

    def shown(self):
        """How the dialogue is shown and logged. What a peer says is shown or logged in any case."""
        return self.one_of(["", "", "log_file log\n", "log_file -a log\nlog_user 0\n", "log_file -a -noappend log\n"])

    def piece(self, most):
        """What a peer says, now and then with a null in it."""
        text = self.text(most)
        place = self.random.randrange(len(text) + 1)
        return (text[:place] + "\0" * self.chance(10) + text[place:]).encode("latin-1")

    def pieces(self, names, most):
        return [(self.one_of(names), "says", self.piece(6)) for _ in self.up_to(most)]

    def turn(self, words):
        """An expect, now and then within a procedure, with its code and value."""
        script = f"expect {words}"
        if self.chance(4):
            script = f"ask {{{script}}}"
        return f"set code [catch {{{script}}} value]\nputs \"$code [lindex [list $value - $value] $code]\"\n"

    def one(self):
        """A dialogue with one peer, with standing lists. Its buffer has room for all that comes."""
        steps = self.pieces("a", 9)
        shown = self.shown()
        script = shown + AGAIN + self.one_of(["start a\n", "spawn ./peer a\nset who($spawn_id) a\n"])
        if self.chance(3):
            script += f"match_max {sum(len(text) + 1 for _, _, text in steps)}\n"
        if self.chance(3):
            script += f"expect_before {self.standing(False)}\n"
        script += f"expect_after {self.standing(True)}\n"
        for _ in range(len(steps) + 3):
            ends = [self.end()] * self.chance(3)
            script += self.turn(self.arguments(self.branches(4, OWN_BODIES + ["{close; told NAME}"]) + ends))
            if self.chance(6):
                script += f"puts [catch {{expect_{self.one_of(['before', 'after'])} {self.standing(True)}}}]\n"
            if "-a" in shown and self.chance(3):
                script += f"log_user {self.random.randrange(2)}\n"
        return script, [*steps, ("a", "ends", b"%d" % self.random.randrange(4))]

    def two(self):
        """A dialogue with two peers. Before each turn one has an empty window, so that it does not matter in which
        order windows are tested; behind the end of one the script ends."""
        script = self.shown() + AGAIN + 'set a [start a]\nset b [start b]\nset both "$a $b"\nset over 0\n'
        steps = self.pieces("ab", 10)
        for _ in range(len(steps) + 2):
            words = []
            for ids in (["$a", "$b"], ["$b", "$a"], ["$both"])[self.random.randrange(3)]:
                words.append("-i " + ids + " " + " ".join(self.branches(3, BODIES, False)))
            words.append(f"-i $both eof {{told {self.name()}; set over 1}}")
            script += f"expect -i {self.one_of(['$a', '$b'])} *\n" + self.turn(self.arguments(words)) + "if {$over} exit\n"
        return script, [*steps, (self.one_of("ab"), "ends", b"0")]

    def asked(self):
        """A dialogue with a peer that speaks when it is told to. Each piece ends with a sign of its own and is waited
        for, so that in the turns behind it nothing more can come, and they may time out."""
        script = self.shown() + AGAIN + "set timeout 0\nstart a\n"
        if self.chance(3):
            script += f"expect_after {self.one_of(['timeout', 'default'])} {{told {self.name()}}}\n"
        steps = []
        for number in self.up_to(8):
            steps += [("a", "hears", b"x"), ("a", "says", self.piece(6) + b"%d" % number)]
            script += f"send x\nexpect -timeout -1 -notransfer -ex {number}\n"
            for _ in self.up_to(3):
                late = [f"{self.one_of(['timeout', 'default'])} {self.one_of(BODIES).replace('NAME', self.name())}"]
                script += self.turn(self.arguments(late * self.chance(4) + self.branches(3, OWN_BODIES) + late * self.chance(2)))
        return script, steps

    def many(self):
        """Many patterns, each sought in a text of its own."""
        script = "log_user 0\nlog_file -a log\nstart a\n"
        steps = []
        for _ in range(20):
            steps.append(("a", "says", self.piece(10)))
            script += f"expect -notransfer ?*\nexpect -indices {{{self.glob(False, True)}}} {{told found}} * {{told none}}\nexpect *\n"
        return script, steps


def quoted(text):
    """A text in braces, or in quotes where braces don't do."""
    if text.endswith("\\"):
        return '"' + "".join("\\" + it if it in '\\"$[' else it for it in text) + '"'
    return "{" + text + "}"


def made(seed, number):
    chances = Chances(seed, number)
    script, steps = (chances.one, chances.one, chances.two, chances.asked, chances.many)[number % 5]()
    return Dialogue(f"random {seed} {number}", script, steps)
