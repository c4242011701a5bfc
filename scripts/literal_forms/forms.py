"""The literals of the table, in groups."""

import decimal
import json
import math
import re

NOWHERE = {"lo": 0, "hi": 0}
PREFIXES = {"Binary": "0b", "Octal": "0o", "Decimal": "", "Hex": "0x"}
SPECIAL = {"Infinity": "Infinity", "-Infinity": "NegInfinity", "NaN": "NaN"}


def finite(text):
    """A decimal as the tree has it: its digits begin and end with none but 0 itself."""
    sign, digits, exponent = decimal.Decimal(text).as_tuple()
    spelled = "".join(map(str, digits)).lstrip("0")
    kept = spelled.rstrip("0")
    exponent += len(spelled) - len(kept)
    return {"negative": sign == 1, "digits": kept or "0", "exponent": exponent if kept else 0}


def number(value, raw=None):
    held = SPECIAL.get(value) or {"Finite": finite(value)}
    return {"Num": {"span": NOWHERE, "value": held, "raw": raw}}


def big(radix, digits, raw=None, negative=False):
    return {"BigInt": {"span": NOWHERE, "negative": negative, "radix": radix, "digits": digits, "raw": raw}}


def string(value, raw=None):
    return {"Str": {"span": NOWHERE, "value": value, "raw": raw}}


def regex(exp, flags=""):
    return {"Regex": {"span": NOWHERE, "exp": exp, "flags": flags}}


# values that are the shortest spelling of a double
PLAIN = """
0 -0 1 5 7 10 99 100 101 999 1000 1001 1024 9999 10000 12000 100000 123000 999999 1000000
0.5 0.25 0.1 0.01 0.001 0.0001 0.00012 0.000123 0.0010 1.5 2.50 10.5 1234.5678 99.001 1000.5 0.30000000000000004
4294967295 4294967296 281474976710655 281474976710656 999999999999999 1000000000000000 1000000000000001
1099511627775 4503599627370495 9007199254740991 9007199254740992 1152921504606847000 9223372036854776000
18446744073709552000 1e18 1e19 1e20 1e21 1e22 123e20 1e100 1.5e300 1.7976931348623157e308
1e-6 1e-7 1.5e-7 2.2250738585072014e-308 5e-324
-1 -5 -1000 -0.5 -0.000123 -1e21 -1000000000000001 -1152921504606847000 -9223372036854776000 -1e-7
Infinity -Infinity NaN
""".split()

# values that are none: node rounds them
EXACT = """
9007199254740993 1000000000000000001 1152921504606846976 9223372036854775807 9223372036854775808 9223372036854775809
18446744073709551615 -1000000000000000001 -9223372036854775807 -9223372036854775808 -9223372036854775809
0.1000000000000000055511151231257827 1.0000000000000000001 123456789012345678901234567890 1e310 -1e310 1e-330
""".split()

# each raw of a number
RAWS = {
    "0": "0 0.0 .0 0. 0e5 00 0x0 0X0 0b0 0B0 0o0 0O0 000",
    "1": "1 1.0 1. 1e0 01 0x1 0b1 0o1",
    "3": "3 0b11 0B11 0o3 0O3 03 0x3",
    "8": "8 08 8.0 0o10 010",
    "10": "10 1_0 10. 10.0 1e1 1E1 1e+1 0xa 0XA 0b1010 0b10_10 0o12 0o1_2 012",
    "15": "15 0xf 0XF 017 0o17",
    "89": "89 089 8_9",
    "255": "255 0xff 0xFF 0xf_F 0b1111_1111 0o377 0377",
    "1000": "1000 1_000 1e3 1E3 1e+3 1000.0 1000. 1_000.0 10e2 0x3e8 0b1111101000 0o1750 01750",
    "0.5": ".5 0.5 0.50 5e-1 .5e0 0.5_0",
    "8.5": "8.5 08.5 8.5e0 85e-1",
    "90": "90 09e1 9e1 9_0",
    "0.0001": "0.0001 1e-4 .0001 1E-4",
    "1e21": "1e21 1E21 1000000000000000000000 1e2_1",
    "1000000000000001": "1000000000000001 1_000_000_000_000_001 0x38d7ea4c68001",
    "9007199254740992": "9007199254740992 0x20000000000000 0b100000000000000000000000000000000000000000000000000000",
    "9223372036854776000": "9223372036854776000 9_223_372_036_854_776_000",
    "Infinity": "1e999 1e1_000 2e308 1" + "0" * 309,
}

BIGS = [
    *(big("Decimal", digits) for digits in "0 1 5 10 1000 9999999999999999 10000000000000000".split()),
    *(big("Decimal", digits) for digits in ["123456789012345678901234567890", "1" + "0" * 30]),
    big("Decimal", "5", negative=True),
    big("Decimal", "10000000000000000", negative=True),
    big("Decimal", "0", "0n"),
    big("Decimal", "10", "10n"),
    big("Decimal", "10", "1_0n"),
    big("Decimal", "1000", "1_000n"),
    big("Decimal", "123456789012345678901234567890", "123_456_789_012_345_678_901_234_567_890n"),
    big("Hex", "ff"),
    big("Hex", "FF"),
    big("Hex", "00"),
    big("Hex", "0123456789abcdef"),
    big("Hex", "ff", negative=True),
    big("Hex", "ff", "0xffn"),
    big("Hex", "FF", "0xFFn"),
    big("Hex", "fF", "0xf_Fn"),
    big("Hex", "a", "0Xan"),
    big("Binary", "11"),
    big("Binary", "1111", "0b11_11n"),
    big("Binary", "1", "0B1n"),
    big("Octal", "17"),
    big("Octal", "17", "0o1_7n"),
    big("Octal", "7", "0O7n"),
]

REGEXES = [
    regex("a"), regex("b", "g"), regex("=x"), regex("[/]"), regex("\\/"), regex("a|b", "dgimsuy"), regex("[*]"),
    regex("(?<n>a)\\k<n>", "u"), regex("é\U0001f600", "u"), regex("<\\/script>"), regex("\\[[\\]/]", "i"), regex("."),
]  # fmt: skip

CONTROLS = ["a" + chr(c) + "b" for c in [0, 1, *range(7, 15), 27, 31]]
CHARACTERS = [
    "", "a", "a b", "a'b", 'a"b', "a\"'b", "a'\"'b", "''\"", "a\\b", "\\", "a\\\\b", "\\u0061", "a/b", "a`b", "${a}",
    "\0", "\x000", "\x009", "\0a", "\0\0", "a\x7fb", "\x80", "\x9f", "\xa0", "é", "\xff", "Ā", "漢字", "\u2027",
    "\u2028", "\u2029", "\u2030", "\ufeff", "\ufffe", "\uffff", "\u200d", "\U00010000", "\U0001f600", "\U0010ffff",
    "a\U0001f60a\u2764\ufe0fb", "\u2028\"",
]  # fmt: skip
SURROGATES = [
    "\\ud83d", "\\uD83D", "\\udfff", "\\uDC00x", "\\u{D83D}", "\\u{dfff}", "a\\ud83d'\"", "\\ud83g", "\\ud7ff", "\\ue000",
    "\\u{D83D", "\\u{D83}", "\\u{0D83D}", "\\uD83", "\\\\ud83d", "\\ud83d\\ude00", "\\u{D83D}\\u{DE00}",
]  # fmt: skip
SCRIPTS = [
    "</script>", "</SCRIPT>", "</ScRiPt >", "</script\t", "</script\n", "</script\f", "</script\r", "</script/", "</script",
    "</scripty>", "< /script>", "<!--", "-->", "<!-->", "<!--->", "--!>", "<!-", "->", "a<!--b-->c</script>d",
    "<<!--", "--->", "</script></script>", "<!--</script>\"",
]  # fmt: skip

STRING_RAWS = {
    "": ['""', "''"],
    "a": ['"a"', "'a'", '"\\x61"', "'\\u0061'", '"\\u{61}"', '"\\u{000061}"', '"\\141"', '"\\a"', '"a\\\n"', "'\\\r\na'",
          "'a\\\u2028'"],
    "8": ['"8"', '"\\8"', "'\\70'"],
    "a'b": ['"a\'b"', "'a\\'b'", "'a\\x27b'"],
    'a"b': ["'a\"b'", '"a\\"b"'],
    "\n\t\b\v\f\r": ['"\\n\\t\\b\\v\\f\\r"', '"\\x0a\\x09\\x08\\x0b\\x0c\\x0d"'],
    "\0": ['"\\0"', '"\\x00"', "'\\u0000'", '"\\00"', '"\\000"'],
    "\x001": ['"\\x001"', '"\\0001"'],
    "\u2028": ['"\u2028"', '"\\u2028"'],
    "\U0001f600": ['"\U0001f600"', '"\\ud83d\\ude00"', '"\\u{1F600}"'],
    "漢字": ['"漢字"', "'\\u6f22字'"],
    "é\"'": ["'é\"\\''"],
    "a\U0001f60a\u2764\ufe0fb": ['"a\U0001f60a\u2764\ufe0fb"', "'a\\ud83d\\ude0a\u2764\\ufe0fb'"],
    "\\ud83d": ['"\\ud83d"', '"\\uD83D"', '"\\u{d83d}"'],
    "é": ['"é"', '"\\xe9"', "'\\351'"],
    "</script>": ['"</script>"', "'<\\/script>'"],
    "<!--": ['"<!--"'],
    "-->": ["'-->'"],
    "use strict": ['"use strict"', "'use strict'", "'use\\x20strict'", '"use\\u0020strict"', '"use s\\\ntrict"',
                   "'use s\\\u2028trict'"],
    "use asm": ["'use\\x20asm'"],
}  # fmt: skip

# A backslash that begins no complete surrogate escape stands for itself.
OTHERWISE = {"\\u{D83D": '"\\\\u{D83D"'}

GROUPS = [
    ("booleans and null", [{"Bool": {"span": NOWHERE, "value": True}}, {"Bool": {"span": NOWHERE, "value": False}},
                           {"Null": {"span": NOWHERE}}]),
    ("numbers by their value", [number(value) for value in PLAIN]),
    ("numbers that are no doubles, and their own values", [number(value) for value in EXACT]),
    ("numbers with a raw", [number(value, raw) for value, raws in RAWS.items() for raw in raws.split()]),
    ("big integers", BIGS),
    ("regular expressions", REGEXES),
    ("strings: control characters", [string(value) for value in CONTROLS]),
    ("strings by their value", [string(value) for value in CHARACTERS]),
    ("strings with written surrogates, complete or not", [string(value) for value in SURROGATES]),
    ("strings that a script in HTML must not hold", [string(value) for value in SCRIPTS]),
    ("strings with a raw", [string(value, raw) for value, raws in STRING_RAWS.items() for raw in raws]),
]  # fmt: skip


def units(value):
    """The code units of a string's value, in which a complete written surrogate escape stands for its unit."""
    spelled = re.sub(
        r"\\u(?:([dD][89a-fA-F][0-9a-fA-F]{2})|\{([dD][89a-fA-F][0-9a-fA-F]{2})\})",
        lambda found: chr(int(found[1] or found[2], 16)),
        value,
    )
    encoded = spelled.encode("utf-16-be", "surrogatepass")
    return [encoded[at] * 256 + encoded[at + 1] for at in range(0, len(encoded), 2)]


def plain(held):
    """The digits of a decimal, without exponent."""
    digits, exponent = held["digits"], held["exponent"]
    if exponent < 0:
        whole = digits.rjust(1 - exponent, "0")
        digits, exponent = f"{whole[:exponent]}.{whole[exponent:]}", 0
    return ("-" if held["negative"] else "") + digits + "0" * exponent


def minified(held):
    """The shortest of the spellings of a decimal: its digits, hexadecimal ones of an integer, or those without zeros."""
    spelled = plain(held)
    best = spelled
    if held["exponent"] >= 0:
        size = int(spelled.lstrip("-"))
        hexadecimal = f"{'-' if held['negative'] else ''}{size:#x}"
        if size <= 2**63 and len(hexadecimal) < len(best):
            best = hexadecimal
    short = re.sub(r"^(-?)0\.", r"\1.", spelled)
    if zeros := re.match(r"\.(000+)(.*)", short):
        short = f"{zeros[2]}e-{len(zeros[1]) + len(zeros[2])}"
    elif zeros := re.fullmatch(r"(.*?)(000+)", short):
        short = f"{zeros[1]}e{len(zeros[2])}"
    return short if len(short) < len(best) else best


def number_text(node, is_minified):
    """A number by its value; `Infinity` that has a raw by it."""
    value = node["value"]
    if isinstance(value, str):
        return node["raw"] or {name: text for text, name in SPECIAL.items()}[value]
    return minified(value["Finite"]) if is_minified else plain(value["Finite"])


def is_exact(node, answer):
    """Whether node's answer is this number, and not only the double that it is rounded to."""
    value = node["value"]
    return isinstance(value, str) or ("Infinity" not in answer and finite(answer) == value["Finite"])


def is_double(value, answer):
    """Whether node's answer is this number."""
    if isinstance(value, str):
        return SPECIAL.get(answer) == value
    held = value["Finite"]
    decimal_text = f"{'-' if held['negative'] else ''}{held['digits']}e{held['exponent']}"
    wanted, found = float(decimal_text), float(answer)
    return wanted == found and math.copysign(1, wanted) == math.copysign(1, found)


def expected(lit, answer):
    """The answer itself, where it is what the literal is worth."""
    kind, node = next(iter(lit.items()))
    if kind == "Num":
        is_right = answer[0] == "number" and is_double(node["value"], answer[1])
    elif kind == "BigInt":
        radix = {"Binary": 2, "Octal": 8, "Decimal": 10, "Hex": 16}[node["radix"]]
        value = int(node["digits"], radix) * (-1 if node["negative"] else 1)
        is_right = answer == ["bigint", str(value)]
    elif kind == "Str":
        is_right = answer == ["string", units(node["value"])]
    elif kind == "Regex":
        is_right = answer == ["regex", f"/{node['exp']}/{node['flags']}"]
    else:
        is_right = answer[1] == json.dumps(node.get("value"))
    return answer if is_right else None
