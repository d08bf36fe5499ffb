"""Names that dmsetup splits, parts of which libdevmapper builds one, and texts that its parser takes or refuses."""

import random

SEED = 5
PIECES = ["a", "b", "vg0", "-", "--", "---", "----", "-----", "_c", "_cdata", ".", "+", "x.y", "1"]

NAMES = """
a a- a-- a--- - -- --- ---- -a --a ---a -a-b --a-b a-b a--b a---b a----b a-----b a------b a-------b a-b- a-b-- a-b---
a-b-c a-b-c-d a-b-c--d a-b--c-d a--b--c a--b-c a-b--c a---b---c a-b-_c a-b-_cdata a-_b a_b-c vg0-lv0 vg0-lv--1
debian--vg-root debian--vg-swap_1 my--vg.01+x-data--2.0+b vg-lv-real vg-lv-cow vg-snap--1-cow vg-pool_tdata vg-pool-tpool
vg-lv_rimage_0 vg-lvol0_pmspare a-b-c-d-e a..b-c .-. +-+ a-.b 1-2 a-b-c-- a-b--c--d a--b---c----d a-----b-c a---b-c --a--b-c
-----a a.b a#b-c a:b-c a@b cryptroot luks-0a1b2c3d-1111-2222-3333-444455556666 luks--0a1b a-b-c- a-b-c-d-- mpatha mpatha-part1
""".split() + ["a b"]

# A group, a volume and perhaps a layer.
PARTS = [
    ("vg0", "lv0", None), ("vg0", "lv-1", None), ("a-", "b", None), ("a", "-b", None), ("a", "b", "_c"), ("a", "b", "real"),
    ("a", "b", "cow"), ("a-b", "c-d", "e-f"), ("a--", "b", None), ("a", "b-", None), ("a-", "b-", "c-"), ("debian-vg", "root", None),
    ("debian-vg", "swap_1", None), ("my-vg.01+x", "data-2.0+b", None), ("my-vg.01+x", "data-2.0+b", "real"), ("a", "", None),
    ("", "b", None), ("a", "b", ""), ("a", "b", "_cdata"), ("a", "pool", "tpool"), ("a_b", "c.d", None), ("x" * 63, "y" * 63, None),
    ("x" * 64, "y" * 63, None), ("x" * 64, "y" * 64, None), ("-", "-", "-"), ("a---", "---b", None),
]

TEXTS = [
    # values, and texts of none
    "", "# x", "# x\na = 1", "a = 1 # x\n", 'a = "#"', "a = 1 b", "a", "a =", "a = = 1\nb = ?", "a = 1;", "a = 1,", "a = 1, b = 2",
    'a = "x" "y"', "a #c\n = #d\n 1", "a=1b=2", "a\t=\t1\r\n",
    # sections
    'a = 1 b { c = "x" }', "a {\n", "a { } }", "}", "a { b { c { d = 1 } } }", "a { b = 1 } c = 2", "a{b=1}", "a\n{\n}\n",
    "a { = 1 }", "{ a = 1 }", "a = { }",
    # lists
    "a = [1, ]", "a = [1,2]", "a = []", "a = [ ]", "a = [,]", "a = [", "a = [1", "a = [1 2]", 'a = ["x", 1, "y"]', "a = [[1]]",
    "a = [ # c\n 1, # d\n 2 # e\n ]", "a = [010, 10]", 'a = [ "x" , ]', "a = [ ] b = [ ]",
    # numbers
    "a = 0000000000000000001", "a = -1", "a = - 1", "a = +1", "a = 1-2", "a = 9223372036854775807", "a = 9223372036854775808",
    "a = 18446744073709551616", "a = 00000000000000000000000001", "a = 1.5", "a = 1.0", "a = .5", "a = 1.", "a = 1e3", "a = 0x10",
    "a = 007", "a = 08", "a = 010", "a = 0100", "a = 019", "a = 0000000000000002048",
    # strings
    'a = ""', 'a = "é"', 'a = "x\\"y"', 'a = "x\\\\y"', 'a = "x\\ny"', 'a = "x\\ty"', 'a = "x\ny"', "a = 'x'", "a = 'x\"y'", "a = x",
    "a = true", "a = @x", 'a = @"x"', 'a = "unterminated', 'a = "tr\\',
    # keys
    "a = 1\na { }", "a = 1\na = 2\n", "a { b = 1 }\na { c = 2 }\n", "a/b = 1", "a/b { c = 1 }", "a.b = 1", "a+b = 1", "a-b = 1",
    "-a = 1", "1 = 1", "1a = 1", "é = 1", '"a b" = 1', '"a" { b = 1 }', "A_b-c.d+e = 1",
]


def experiments():
    """The names, the parts and the texts, the first two with random ones after them."""
    dice = random.Random(SEED)
    split = ["".join(dice.choice(PIECES) for _ in range(dice.randint(2, 6))) for _ in range(60)]
    build = [(random_part(dice), random_part(dice), random_layer(dice)) for _ in range(40)]
    return {"split": list(dict.fromkeys(NAMES + split)), "build": [list(it) for it in dict.fromkeys(PARTS + build)], "text": TEXTS}


def random_part(dice):
    return "".join(dice.choice("ab-.+_1-") for _ in range(dice.randint(1, 6)))


def random_layer(dice):
    # A random part is made in any case, so that what follows is the same whatever is chosen.
    return dice.choice([None, None, "real", "cow", random_part(dice)])
