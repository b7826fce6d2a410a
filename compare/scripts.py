"""Random scripts for compare: mostly well formed, with a byte put in, left out or changed now and then."""
import random

TEXTS = ["a", "b", "long_name"]
ARRAYS = ["x1", "A"]
LISTS = ["l", "k"]
NUMBERS = ["n", "i"]
PROCEDURES = ["p", "q", "r"]

# Stands first in each script: what a script caught is shown between the bytes 29 and 30, and the text of an error goes no
# further than that.
SAID = 'proc said {c m} {puts -nonewline "\\x1d$c:$m\\x1e"; lindex [list $m {} $m] $c}\n'
# Stands behind it in most scripts, so that there is something to read and to call.
HEAD = (
    "set a 1; set b {x y}; set long_name \\{; set n 7; set i -3; set l {a {b c} d 2 {} }; set k [list 1 2 \\{]\n"
    "set x1(i) 7; set x1(1) {}; set {x1(x y)} b; set A(i) \"p q\"; set A(1) {{}}; set {A(x y)} \\;\n"
    "proc p {a} {return $a$a}; proc q {b {c d} args} {list $b $c $args}; proc r {} {global a; set a}\n"
)
# For commands that come later, behind --also.
LATER = {"expr", "if", "while", "for", "switch", "array"}
# Stands behind HEAD where there are formulas: numbers at the edges of 64 bits.
EDGES = "set least -0x8000000000000000; incr least 0; set most 0x7fffffffffffffff; incr most 0; set half 4294967296; set root -3037000500\n"

INDEXES = ["i", "1", "i", "1", "x y", "$a", "[set a]", "", "{", "i j", "\\)", "x\\ y", "\"q\""]
LETTERS = list("abcxyzAZ019_.,:-+*/=<>!@%&|~'^?()#")
SIGNS = ['"', "{", "}", "[", "]", "$", "\\", ";", "#", " ", "\t", "\n", "\v", "\f", "\r", "*"]
ESCAPES = [
    "\\n", "\\t", "\\a", "\\b", "\\f", "\\r", "\\v", "\\\\", "\\\"", "\\{", "\\}", "\\[", "\\]", "\\$", "\\;", "\\ ",
    "\\#", "\\q", "\\x41", "\\x4", "\\x", "\\xfg", "\\xff", "\\xg", "\\101", "\\7", "\\18", "\\400", "\\377", "\\0",
    "\\\n", "\\\n  \t", "\\u0041", "\\U00000041", "\\8",
]
NUMERALS = [
    "0", "1", "2", "3", "-1", "7", "10", "+3", "0x10", "0xfF", "-0x1", "0o17", "0b101", "017", "08", "0X1", "{ 5 }",
    "\"\t-2\n\"", "x", "{}", "1x", "--1", "9223372036854775807", "-9223372036854775808", "9223372036854775808", "{1 2}",
]
PLACES = ["0", "1", "2", "0", "1", "end", "end-1", "end-0", "-1", "3", "10", "0x1", "01", "{ 1 }", "end-9", "x", "{}", "en", "end-x", "1x"]
GLOBS = ["*", "?", "a*", "*b", "\\*", "[ab]", "[a-c]", "[c-a]", "[]", "[", "[x", "a", "b", "\\", "^", "$", " ", "[a-", "\\?", "**", "[\\]"]
# The subcommands of string, with what follows each.
STRING = {
    "length": "t", "index": "tp", "range": "tpp", "equal": "tt", "compare": "tt", "first": "tt", "last": "tt",
    "match": "gt", "tolower": "t", "toupper": "t", "trim": "tT", "trimleft": "tT", "trimright": "tT",
}
# What elements of a list may look like, right and wrong.
ELEMENTS = [
    "a", "b", "1", "2", "{x y}", "{}", '"q r"', "\\{", "#", "x\\ y", "{a}b", '"a"b', "\\x41", "\\}", "{\\}}", '"\\""', "{ {a} b }",
    "{a\\\nb}", "\\\n", "a{b}", 'a"b', "[a]", "$a", ";", "\\", "\\\\", '""', "{a\\{b}", "\\u0041", "end", "-1", "\\101c", '"{"', '{"}',
]
BETWEEN = [" ", " ", " ", "\t", "\n", "  ", "\v", "\f", "\r", "", " \n"]
NUMERAL_OPERANDS = [
    "0", "1", "2", "3", "7", "10", "0x1f", "1", "63", "64", "017", "0b11", "0o17", "08", "31", "62", "4294967296", "9223372036854775807",
    "0xffffffff", "100",
]
OPERAND_TEXTS = ['"a"', '"x y"', "{a}", "{7}", '"$a"', "{}", '"08"', '" 5 "', '"0x10"', '"-1"', '"[set n]"', '"\\x37"', "{ }", '"1x"', '"+1"']
TRUTHS = ["true", "no", "on", "off", "yes", "false"]
EQUALS = ["==", "!=", "eq", "ne", "in", "ni"]
BINARY = ["+", "-", "*", "/", "%", "<<", ">>", "<", ">", "<=", ">=", "==", "!=", "eq", "ne", "in", "ni", "&", "^", "|", "&&", "||"]


def pairs(text):
    """Whether the braces of a text pair up as Tcl counts them."""
    depth, place = 0, 0
    while place < len(text):
        if text[place] == "\\":
            place += 1
        elif text[place] == "{":
            depth += 1
        elif text[place] == "}":
            depth -= 1
            if depth < 0:
                return False
        place += 1
    return depth == 0 and not text.endswith("\\")


class Scripts:
    """Random scripts. What is made next depends on the seed alone."""

    def __init__(self, seed, also=()):
        self.random = random.Random(seed)
        self.kinds = [
            (10, self.make_set), (6, self.make_list), (14, self.make_puts), (3, self.make_append), (3, self.make_incr),
            (4, self.make_lappend), (3, self.make_unset), (2, self.make_global), (2, self.make_exists),
            (6, self.make_catch), (1, self.make_error), (3, self.make_eval), (2, self.make_leave), (5, self.make_foreach),
            (3, self.make_proc), (4, self.make_call), (2, self.make_concat), (3, self.make_join), (4, self.make_lindex),
            (2, self.make_llength), (3, self.make_lrange), (3, self.make_split), (10, self.make_string),
            (1, self.make_words),
        ]
        later = {
            "expr": (6, self.make_expr), "if": (4, self.make_if), "while": (2, self.make_while), "for": (2, self.make_for),
            "switch": (3, self.make_switch), "array": (4, self.make_array),
        }
        self.kinds += [later[it] for it in sorted(also)]
        self.total = sum(weight for weight, _ in self.kinds)
        self.head = HEAD + EDGES * ("expr" in also)

    def one_of(self, items):
        return items[self.random.randrange(len(items))]

    def chance(self, one_in):
        return self.random.randrange(one_in) == 0

    def many(self, make, most):
        return "".join(make() for _ in range(self.random.randrange(most + 1)))

    # Scripts and commands

    def whole(self):
        """A script, most often behind variables that it can read."""
        return SAID + self.head * (not self.chance(20)) + self.script()

    def script(self, depth=0):
        make = self.guarded if depth == 0 else self.command
        commands = [make(depth) for _ in range(self.random.randrange(1, 6 if depth == 0 else 3))]
        return self.command_end().join(commands)

    def command_end(self):
        return self.one_of([";", "\n", "; ", " ;", "\n\n", ";;", " \n  ", "\\\n;", ";\\\n"])

    def blank(self):
        return self.one_of([" "] * 12 + ["\t", "  ", "\\\n", " \\\n\t ", "\v", "\f", "\r"])

    def command(self, depth):
        if self.chance(20):
            return self.comment()
        words = self.chosen()(depth)
        if words[:1] != ["said"]:
            words += [self.word(depth)] * self.chance(30)
            words = words[: len(words) - self.chance(40)]
        text = "".join(it + self.blank() for it in words[:-1]) + "".join(words[-1:]) + self.blank() * self.chance(5)
        return self.spoiled(text) if "said" not in text and self.chance(8) else text

    def guarded(self, depth):
        """A command, whose error does not end the script in two of three."""
        text = self.command(depth)
        if self.chance(3) or not pairs(text):
            return text
        return "said [catch {" + text + "} m] $m"

    def chosen(self):
        place = self.random.randrange(self.total)
        for weight, make in self.kinds:
            place -= weight
            if place < 0:
                return make
        raise AssertionError

    def comment(self):
        text = self.many(lambda: self.one_of(LETTERS + SIGNS[:7] + [" ", "\\\n", ";"]), 8)
        return "#" + text + "\n"

    def some(self, make, least, most):
        return [make() for _ in range(self.random.randrange(least, most + 1))]

    def make_set(self, depth):
        return ["set", self.name_word(), *[self.word(depth)] * (not self.chance(6))]

    def make_list(self, depth):
        return ["list", *self.some(lambda: self.word(depth), 0, 3)]

    def make_puts(self, depth):
        shown = self.nested(depth) if self.chance(2) else self.word(depth)
        return ["puts", *["-nonewline"] * self.chance(4), *["stdout"] * self.chance(8), shown]

    def make_append(self, depth):
        return ["append", self.name_word(), *self.some(lambda: self.word(depth), 1, 3)]

    def make_incr(self, depth):
        return ["incr", self.number_name(), *[self.number(depth)] * self.chance(2)]

    def make_lappend(self, depth):
        return ["lappend", self.list_name(), *self.some(lambda: self.word(depth), 0, 3)]

    def make_unset(self, depth):
        flags = ["-nocomplain"] * self.chance(2) + ["--"] * self.chance(6)
        return ["unset", *flags, *self.some(self.name_word, 1, 2)]

    def make_global(self, depth):
        return ["global", *self.some(lambda: self.name(TEXTS + LISTS), 1, 2)]

    def make_exists(self, depth):
        return ["info", "exists", self.name_word()]

    def make_catch(self, depth):
        return ["said", "[catch " + self.body(depth) + " m]", "$m"]

    def make_error(self, depth):
        return ["error", self.word(depth)]

    def make_eval(self, depth):
        if self.chance(2):
            return ["eval", self.body(depth)]
        return ["eval", self.one_of(["set", "list", "puts", "lindex", "concat", "p"]), *self.some(lambda: self.word(depth), 0, 3)]

    def make_leave(self, depth):
        word = self.one_of(["break", "continue", "return", "return"])
        return [word, *[self.word(depth)] * (word == "return" and self.chance(2))]

    def make_foreach(self, depth):
        names = lambda: self.one_of(["a", "b", "{a b}", "l", "x1(i)", "{a long_name}", "n"])
        pair = lambda: [names(), self.list_word(depth)]
        words = pair() + (pair() if self.chance(3) else [])
        return ["foreach", *words, self.body(depth)]

    def make_proc(self, depth):
        formals = self.one_of(["{}", "a", "{a}", "{a b}", "{a {b 2}}", "{{a 1} args}", "args", "{x1}", "{{a {x y}}}", "{n l}"])
        return ["proc", self.one_of(PROCEDURES), formals, self.body(depth)]

    def make_call(self, depth):
        return [self.one_of(PROCEDURES), *self.some(lambda: self.word(depth), 0, 3)]

    def make_concat(self, depth):
        return ["concat", *self.some(lambda: self.list_word(depth), 0, 3)]

    def make_join(self, depth):
        return ["join", self.list_word(depth), *[self.word(depth)] * self.chance(2)]

    def make_lindex(self, depth):
        return ["lindex", self.list_word(depth), *[self.place(depth)] * (not self.chance(8))]

    def make_llength(self, depth):
        return ["llength", self.list_word(depth)]

    def make_lrange(self, depth):
        return ["lrange", self.list_word(depth), self.place(depth), self.place(depth)]

    def make_split(self, depth):
        return ["split", self.word(depth), *[self.one_of(["{}", "a", "{ }", "ab", "\\n", self.word(depth)])] * self.chance(2)]

    def make_string(self, depth):
        name = self.one_of(list(STRING))
        made = {"t": self.word, "p": self.place, "g": self.glob, "T": self.word}
        words = [made[it](depth) for it in STRING[name] if it != "T" or self.chance(2)]
        return ["string", name, *words]

    def make_words(self, depth):
        return self.some(lambda: self.word(depth), 0, 2)

    def make_expr(self, depth):
        return ["expr", "{" + self.formula(depth) + "}"] if not self.chance(6) else ["expr", self.formula(depth)]

    def make_if(self, depth):
        words = ["if", self.test(depth), *["then"] * self.chance(4), self.body(depth)]
        if self.chance(3):
            words += ["elseif", self.test(depth), *["then"] * self.chance(4), self.body(depth)]
        if self.chance(2):
            words += [*["else"] * (not self.chance(4)), self.body(depth)]
        return words

    def make_while(self, depth):
        """A loop that ends by its own counter, whatever its body does to other variables."""
        turns = self.random.randrange(4)
        return ["set", f"w{depth}", f"0; while {{[incr w{depth}] <= {turns}}}", self.body(depth)]

    def make_for(self, depth):
        turns = self.random.randrange(4)
        name = f"w{depth}"
        step = self.one_of(["", "", "", "; set a $" + name, "; continue", "; break", "; error e", "; return x"])
        return ["for", "{set " + name + " 0}", f"{{${name} < {turns}}}", "{incr " + name + step + "}", self.body(depth)]

    def make_switch(self, depth):
        pattern = lambda: self.one_of(["a", "1", "{x y}", "*", "?", "[ab]", "default", "7", "{}", "x*"])
        arms = [it for _ in range(self.random.randrange(1, 4)) for it in (pattern(), "-" if self.chance(5) else self.body(depth))]
        words = ["switch", *self.one_of([[], [], ["-exact"], ["-glob"], ["-glob", "--"], ["--"]]), self.word(depth)]
        return words + (["{" + " ".join(arms) + "}"] if self.chance(2) and pairs(" ".join(arms)) else arms)

    def make_array(self, depth):
        name = self.name(ARRAYS)
        kind = self.random.randrange(6)
        if kind == 0:
            return ["array", "set", name, self.list_word(depth)]
        if kind == 1:
            return ["array", "unset", name, *[self.glob(depth)] * self.chance(2)]
        if kind == 2:
            # The order of the elements is this project's own.
            return ["foreach", "{w v}", f"[array get {name}" + f" {self.glob(depth)}" * self.chance(2) + "]", "{set seen($w) $v}; puts [info exists seen(i)]"]
        if kind == 3:
            return ["llength", f"[array names {name}" + f" {self.glob(depth)}" * self.chance(2) + "]"]
        return ["array", self.one_of(["exists", "size"]), self.name(ARRAYS) if self.chance(2) else name]

    # Words

    def body(self, depth):
        """A script as a word in braces that pair up."""
        text = self.script(depth + 1) if depth < 4 else self.one_of(["set a", "puts $b", "p 1", "break", "return x", "error e"])
        if not pairs(text):
            text = text.replace("{", "").replace("}", "")
        return "{" + text + "}" if pairs(text) else "{set a}"

    def list_word(self, depth):
        kind = self.random.randrange(8)
        if kind < 3:
            return "$" + self.name(LISTS)
        if kind == 3:
            text = "".join(self.some(lambda: self.one_of(ELEMENTS[:10] if self.chance(2) else ELEMENTS) + self.one_of(BETWEEN), 0, 5))
            return "{" + text + "}" if pairs(text) else "[list " + text.replace("\n", " ").replace("{", "\\{").replace("}", "\\}") + "]"
        if kind == 4:
            return "[list " + " ".join(self.some(lambda: self.word(depth), 0, 3)) + "]"
        return self.word(depth)

    def place(self, depth):
        return self.one_of(["$n", self.word(depth)]) if self.chance(12) else self.one_of(PLACES)

    def number(self, depth):
        return self.one_of(["$n", "$i", self.word(depth)]) if self.chance(4) else self.one_of(NUMERALS)

    def glob(self, depth):
        if self.chance(5):
            return self.word(depth)
        return "{" + self.many(lambda: self.one_of(GLOBS), 4).rstrip("\\") + "}"

    def test(self, depth):
        return "{" + self.formula(depth) + "}" if not self.chance(8) else self.one_of(["0", "1", "yes", "off", "$a", "x"])

    def formula(self, depth, levels=0):
        kind = self.random.randrange(12)
        if levels > 3 or kind < 4:
            return self.operand(depth)
        part = lambda: self.formula(depth, levels + 1)
        if kind < 8:
            return self.joined(part(), self.one_of(BINARY), part())
        if kind == 8:
            return self.one_of(["-", "!", "~", "+"]) + part()
        if kind == 9:
            return f"({part()} ? {part()} : {part()})"
        if kind == 10:
            return f"({self.joined(part(), self.one_of(BINARY), part())})"
        if self.chance(3):
            return f"abs({part()})"
        arguments = ", ".join(self.some(part, 1, 3))
        return self.one_of(["max", "min"]) + f"({arguments})"

    def joined(self, left, operator, right):
        """Two operands with an operator between them; one that is no word needs no white. Tcl has one level for the
        operators of EQUALS, against its manual, so these stand in parentheses."""
        if operator in EQUALS:
            return f"(({left}) {operator} ({right}))"
        white = self.one_of([" ", " ", " ", "\t", " \n "] if operator.isalpha() else [" ", " ", "", "\n", "\t"])
        return left + white + operator + white + right

    def operand(self, depth):
        kind = self.random.randrange(14)
        if kind < 6:
            return self.one_of(NUMERAL_OPERANDS)
        if kind < 8:
            return self.one_of(["$n", "$i", "$a", "$b", "$k", "$x1(i)", "$A(1)"])
        if kind < 10:
            return self.one_of(["$least", "$most", "$half", "$root", "$n"])
        if kind == 10:
            return self.one_of(OPERAND_TEXTS)
        if kind == 11:
            return self.one_of(TRUTHS)
        if kind == 12 and depth < 3:
            return self.nested(depth) if self.chance(3) else "[" + self.one_of(["set n", "incr i", "llength $l", "string length $a", "p 1", "error e", "break", "set q"]) + "]"
        return self.one_of(["4", "$n"])

    def name(self, kind):
        """A name of this kind, but now and then one of the others."""
        return self.one_of(TEXTS + ARRAYS + LISTS + NUMBERS if self.chance(12) else kind)

    def list_name(self):
        return self.name_word() if self.chance(4) else self.name(LISTS)

    def number_name(self):
        return self.name_word() if self.chance(4) else self.name(NUMBERS)

    def name_word(self):
        if self.chance(3):
            element = f"{self.name(ARRAYS)}({self.one_of(INDEXES[:5] if self.chance(2) else INDEXES)})"
            return "{" + element + "}" if self.chance(2) else element
        if self.chance(25):
            return self.one_of(["x::y", "::x", "(i)", "{}", "a(", "a)"])
        name = self.name(TEXTS)
        return self.one_of([name] * 5 + ["{" + name + "}", '"' + name + '"'])

    def word(self, depth):
        kind = self.random.randrange(14)
        prefix = "{*}" if self.chance(10) else ""
        if kind < 3:
            return prefix + self.bare(depth)
        if kind < 6:
            return prefix + '"' + self.many(lambda: self.quoted_part(depth), 4) + '"'
        if kind < 9:
            return prefix + "{" + self.many(self.braced_part, 4) + "}"
        if kind < 12:
            return prefix + self.variable(depth)
        return prefix + self.nested(depth)

    def bare(self, depth):
        return self.one_of(LETTERS) + self.many(lambda: self.part(depth), 3)

    def part(self, depth):
        kind = self.random.randrange(10)
        if kind < 6:
            return self.one_of(LETTERS)
        if kind == 6:
            return self.one_of(ESCAPES)
        if kind == 7:
            return self.variable(depth)
        if kind == 8:
            return self.nested(depth)
        return self.one_of(['"', "{", "}", "$", "]"])

    def quoted_part(self, depth):
        return self.one_of([" ", "\n", ";", "{", "}", "]", "#", "\t"]) if self.chance(3) else self.part(depth)

    def braced_part(self):
        kind = self.random.randrange(8)
        if kind < 3:
            return self.one_of(LETTERS)
        if kind == 3:
            return "{" + self.many(lambda: self.one_of(LETTERS + [" "]), 2) + "}"
        if kind == 4:
            return self.one_of(ESCAPES)
        return self.one_of([" ", "\n", ";", '"', "[", "]", "$", "#", "\t", "$a", "\\\n \t"])

    def variable(self, depth):
        kind = self.random.randrange(10)
        if kind < 5:
            return "$" + self.name(TEXTS + LISTS + NUMBERS)
        if kind == 5:
            return "${" + self.name(TEXTS) + "}"
        array = self.name(ARRAYS)
        if kind == 6:
            return "${" + self.one_of([f"{array}(i)", f"{array}(x y)", f"{array}(1)", "a b", f"{array}($a)"]) + "}"
        if kind == 7 and depth < 3:
            return f"${array}(" + self.many(lambda: self.part(depth + 1), 2) + ")"
        return f"${array}({self.one_of(INDEXES[:7] if not self.chance(6) else INDEXES)})"

    def nested(self, depth):
        return "[" + (self.script(depth + 1) if depth < 3 else "set a") + "]"

    def spoiled(self, text):
        place = self.random.randrange(len(text) + 1)
        sign = self.one_of(SIGNS + LETTERS)
        return text[:place] + self.one_of([sign, "", sign]) + text[place + self.random.randrange(2) :]
