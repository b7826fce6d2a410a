"""Whether two courses of a script agree, but for what this project has of its own."""
import re

# The errors by which this project refuses what Tcl takes.
REFUSED = re.compile(
    rb"\\u and \\U are not in this profile|bad variable name|nested too deeply|too many nested evaluations"
    rb"|command limit reached|whole number out of range"
    # A number past 64 bits, one with a fraction or an exponent, and what Tcl reads as such.
    rb"|expected a whole number but got \"\s*[-+]?(\d{19,}|0x[0-9a-fA-F]{16,}|\d*\.\d*([eE][-+]?\d+)?|\d+[eE][-+]?\d+|(?i:inf|nan|infinity))\s*\""
    # Words that Tcl takes for truth values: capitals, and beginnings of the six words.
    rb"|expected a truth value but got \"(?i:t|tr|tru|true|f|fa|fal|fals|false|y|ye|yes|n|no|on|of|off|0?\.\d+|\d+\.\d*)\"",
    re.DOTALL,
)
# What may be refused in a script, by its text: a script that differs and catches one of these without a word of it says
# nothing.
MAY_BE_REFUSED = re.compile(rb"\\[uU]|::|\$\(|\$\{\(|\d{19,}")
# What is no formula here and may be one in Tcl, which refuses some of it only where it is evaluated: fractions, functions
# but three, beginnings of the truth values.
MAY_BE_UNREAD = re.compile(
    rb"\.\d|\d\.|(?<![\w$])(?!(?:abs|min|max)\()[a-zA-Z_]\w*\("
    rb"|(?<![\w$])(?i:t|tr|tru|f|fa|fal|fals|y|ye|n|of)(?!\w)|(?<![\w$])(?!true|false|yes|no|on|off)(?i:true|false|yes|no|on|off)(?!\w)"
)
# A text that stands against a list of an array's elements, whose order Tcl leaves open. A quote after the list is such a
# text where none is open: where there is none in its command before it.
BESIDE_ELEMENTS = re.compile(
    rb"\[\s*array\s+(names|get)[^\]]*\][^\s\];}\"]|[^\s\[{;\"]\[\s*array\s+(names|get)"
    rb"|(?:^|[;{\[\n])[^\";{\[\n]*\s\[\s*array\s+(names|get)[^\]\"]*\]\""
)
# The kinds of errors: this project's text, and Tcl's. Where a text is the same on both sides no kind is asked for.
KINDS = [
    (rb"wrong # args for \".*\"", rb"wrong # args: .*"),
    (rb"can't read \".*\": no such variable", rb"can't (read|unset) \".*\": no such variable"),
    (rb"can't read \".*\": no such element", rb"can't (read|unset) \".*\": no such element in array"),
    (rb"\".*\" is an array", rb"can't (read|set|unset|array set) \".*\": variable is array|couldn't set loop variable: \".*\"|.*variable is array"),
    (rb"\".*\" is not an array", rb"can't (read|set|unset|array set) \".*\": variable isn't array|couldn't set loop variable: \".*\"|.*variable isn't array"),
    (rb"list element in (braces|quotes) followed by other characters", rb"list element in (braces|quotes) followed by \".*\" instead of space"),
    (rb"(break|continue) outside of a loop", rb"invoked \"(break|continue)\" outside of a loop"),
    (rb"bad argument \"\s*\" for \"foreach\"", rb"foreach varlist is empty"),
    (rb"bad argument \".*\" for \"proc\"", rb"too many fields in argument specifier .*|argument with no name|formal parameter .*|list element in .*"),
    (rb"expected a whole number but got \".*\"", rb"can't use .* as operand of .*|expected (integer|number|floating-point number) but got .*|argument to math function .*"),
    (rb"expected a truth value but got \".*\"", rb"expected boolean value but got .*|can't use .* as operand of .*"),
    (rb"bad argument \".*\" for \"array\"", rb"list must have an even number of elements"),
    (rb"negative shift", rb"negative shift argument"),
    (rb"syntax error in expression", rb"(missing|invalid|incomplete|unknown|extra|unbalanced|empty|too (few|many)|not enough|unexpected|premature|syntax).*"),
    (rb"missing close-brace", rb"missing close-brace.*"),
]
KINDS = [(re.compile(own, re.DOTALL), re.compile(other, re.DOTALL)) for own, other in KINDS]
CAUGHT = re.compile(rb"\x1d([^\x1d\x1e]*)\x1e")


def is_same_text(own, other):
    """Whether two texts of errors are the same, or of one kind."""
    return own == other or any(it.fullmatch(own) and that.fullmatch(other) for it, that in KINDS)


def steps(course):
    """What was printed and what was caught, in order, and the end: each a kind and a text."""
    out, error = course
    found = []
    for number, text in enumerate(CAUGHT.split(out)):
        if number % 2 == 0:
            found.append((b"text", text))
        elif text.startswith(b"1:"):
            found.append((b"error", text[2:]))
        else:
            found.append((b"code", text))
    found.append((b"end", b"") if error is None else (b"error", error))
    return found


# A command that {*} leaves without words, where the empty list is written out: Tcl drops it when it compiles.
DROPPED = re.compile(rb"\{\*\}(\{\s*\}|\"\s*\")")


def judge(script, here, there):
    """'same', 'refused' where this project refuses at the first difference, 'unsaid' where it may have done so unseen
    or Tcl may have dropped a command, 'texts' where an error is of another kind, or 'differs'; with the two texts."""
    found, own, other = judge_courses(here, there)
    if found in ("differs", "texts") and b"catch" in script and MAY_BE_REFUSED.search(script):
        return "unsaid", own, other
    if found == "differs" and (DROPPED.search(script) or BESIDE_ELEMENTS.search(script)):
        return "unsaid", own, other
    if found == "differs" and own == b"syntax error in expression" and MAY_BE_UNREAD.search(script):
        return "unsaid", own, other
    return found, own, other


def judge_courses(here, there):
    own, others = steps(here), steps(there)
    spelled, kinds = [], None
    for number, (kind, text) in enumerate(own):
        if kind == b"error" and REFUSED.fullmatch(text) and (number >= len(others) or others[number] != own[number]):
            return "refused", text, b""
        if number == len(others):
            return "differs", text, b""
        other_kind, other = others[number]
        for one, that in spelled:
            other = other.replace(that, one)
        if kind == b"text" and text != other and other.startswith(text):
            after_kind, after = own[number + 1]
            if REFUSED.fullmatch(after):
                return "refused", text, other
            if after_kind == b"error":
                return "differs", after, other
        if kind != other_kind or (kind != b"error" and text != other):
            return "differs", text, other
        if kind == b"error" and text != other:
            spelled.append((text, other))
            kinds = kinds or (None if is_same_text(text, other) else (text, other))
    return ("texts", *kinds) if kinds else ("same", b"", b"")
