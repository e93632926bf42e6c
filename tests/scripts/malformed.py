"""Scripts with a malformed line, each with the number of the first one.
`tests/library/scripts_in_python.py` gives them to the program and the library."""

# The first line is the word `zone`, one space, and a name.
ZONE_LINES = [
    ("", 1),
    ("\n", 1),
    ("\nzone a\n", 1),
    ("zone", 1),
    ("zone\n", 1),
    ("zone ", 1),
    ("zonea\n", 1),
    ("Zone a\n", 1),
    (" zone a\n", 1),
    ("zone  a\n", 1),
    ("zone a \n", 1),
    ("zone example.com\r\n", 1),
    ("zone a..b", 1),
    ("zone a\\256\n", 1),
    ("zone aü\n", 1),
    ("delete K1\n", 1),
    ("delete K1\nzone a\n", 1),
]

# The first malformed line is named, and no line before it is run.
LATER_LINES = [
    ("zone .\n\n", 2),
    ("zone a\n\ndelete K1\n", 2),
    ("zone a\nzone a\n", 2),
    ("zone a\nzone a", 2),
    ("zone a\ndelete K1\n\n", 3),
    ("zone example.com\ndone algorithm-roll\ndone CSK-roll\n", 3),
    ("zone a\nadd-ksk K1 - 13 1 0 yes\nwait\n", 3),
    ("zone a\ndelete K1\ndelete K2\ndelete\nfoo\n\n", 4),
    ("zone a\nfoo\nzone a..b\n", 2),
]

# A line has a word that there is, and then as many fields as the word takes, each after one space.
WORDS_AND_SPACES = [
    ("zone .\nwait1 ksk-roll  0\n", 2),
    ("zone .\ndone ksk-roll \n", 2),
    ("zone a\n delete K1\n", 2),
    ("zone a\n \n", 2),
    ("zone a\ndelete\tK1\n", 2),
    ("zone a\ndelete K1\r\n", 2),
    ("zone a\ndelete\n", 2),
    ("zone a\ndelete \n", 2),
    ("zone a\ndelete K1 K2\n", 2),
    ("zone a\nDelete K1\n", 2),
    ("zone a\ndeleted K1\n", 2),
    ("zone a\nadd K1 - 13 1 0 yes\n", 2),
    ("zone a\nadd-ksk K1 13 1 0 yes\n", 2),
    ("zone a\nadd-zsk K1 - 13 1 0\n", 2),
    ("zone a\nadd-csk K1 - 13 1 0 yes yes\n", 2),
    ("zone a\nadd-public K1 - 13 1 0 yes\n", 2),
    ("zone a\nset-present K1 yes\n", 2),
    ("zone a\nset-signer K1 yes 0\n", 2),
    ("zone a\nset-at-parent K1\n", 2),
    ("zone a\nset-stale K1 yes\n", 2),
    ("zone a\nset-visible K1\n", 2),
    ("zone a\nstart algorithm-roll K1 0\n", 2),
    ("zone a\nreport1 ksk-roll 60\n", 2),
    ("zone a\nwait2 ksk-roll 60 0\n", 2),
    ("zone a\ndone ksk-roll 0\n", 2),
    ("zone a\nabort\n", 2),
    ("zone a\nabort ksk-roll 5\n", 2),
    ("zone a\naborted ksk-roll\n", 2),
]

# Numbers out of range, of more than 20 digits, or with other bytes than digits.
NUMBERS = [
    ("zone .\nadd-ksk K - 256 0 0 yes\n", 2),
    ("zone .\nadd-ksk K - 13 65536 0 yes\n", 2),
    ("zone a\nadd-ksk K1 - 13 1 18446744073709551616 yes\n", 2),
    ("zone a\nadd-ksk K1 - 13 1 99999999999999999999 yes\n", 2),
    ("zone .\nreport1 ksk-roll 4294967296 0\n", 2),
    ("zone a\nreport2 ksk-roll 60 18446744073709551616\n", 2),
    ("zone a\nadd-public K1 000000000000000000013 1 0 yes\n", 2),
    ("zone .\nwait1 ksk-roll 000000000000000000001\n", 2),
    ("zone .\nwait1 ksk-roll 18446744073709551616\n", 2),
    ("zone a\nwait1 ksk-roll 340282366920938463463374607431768211456\n", 2),
    ("zone a\nwait1 ksk-roll -1\n", 2),
    ("zone a\nwait1 ksk-roll +1\n", 2),
    ("zone a\nwait1 ksk-roll 0x1\n", 2),
    ("zone a\nwait1 ksk-roll 1s\n", 2),
    ("zone a\nwait1 ksk-roll \n", 2),
    ("zone a\nset-visible K1 -\n", 2),
]

# Algorithms by another word than their six names, and an empty name.
ALGORITHMS = [
    ("zone a\nadd-ksk K - ecdsap256sha256 0 0 yes\n", 2),
    ("zone a\nadd-zsk K - Ed25519 0 0 yes\n", 2),
    ("zone a\nadd-csk K - ED25519. 0 0 yes\n", 2),
    ("zone a\nadd-public K ED4488 0 0 yes\n", 2),
    ("zone a\nadd-public K ED44 0 0 yes\n", 2),
    ("zone a\nadd-public K 16ED448 0 0 yes\n", 2),
    ("zone a\nadd-public K RSASHA1 0 0 yes\n", 2),
    ("zone a\nadd-public K RSA 0 0 yes\n", 2),
    ("zone a\nadd-public K rsasha256 0 0 yes\n", 2),
    ("zone a\nadd-public K ECDSA-P256-SHA256 0 0 yes\n", 2),
    ("zone a\nadd-public K ED448ED448 0 0 yes\n", 2),
    ("zone a\nadd-public K \u00c9 0 0 yes\n", 2),
    ("zone a\nadd-public K - 0 0 yes\n", 2),
    ("zone a\nadd-public K  0 0 yes\n", 2),
    ("zone a\nadd-public K ED448\x00 0 0 yes\n", 2),
    ("zone a\nadd-public K 16 ED448 0 yes\n", 2),
    ("zone a\nreport1 ksk-roll ED448 0\n", 2),
]

# References, lists of them, flags and rolls of another form.
REFERENCES_FLAGS_AND_ROLLS = [
    ("zone a\ndelete -\n", 2),
    ("zone .\nadd-ksk - - 13 0 0 yes\n", 2),
    ("zone .\ndelete K,L\n", 2),
    ("zone a\nadd-ksk K1 ,K1 13 1 0 yes\n", 2),
    ("zone a\ndelete Kü\n", 2),
    ("zone a\ndelete K\x7F\n", 2),
    ("zone a\ndelete K\x00\n", 2),
    ("zone a\nstart ksk-roll - ,K1 0\n", 2),
    ("zone .\nstart ksk-roll A, - 0\n", 2),
    ("zone .\nstart ksk-roll A,,B - 0\n", 2),
    ("zone a\nstart ksk-roll - , 0\n", 2),
    ("zone a\nstart ksk-roll - K1,- 0\n", 2),
    ("zone a\nstart ksk-roll -,K1 K2 0\n", 2),
    ("zone a\nset-signer K1 Yes\n", 2),
    ("zone .\nadd-ksk K - 13 0 0 Yes\n", 2),
    ("zone a\nset-signer K1 true\n", 2),
    ("zone a\nset-signer K1 -\n", 2),
    ("zone a\ndone roll\n", 2),
    ("zone a\ndone CSK-roll\n", 2),
    ("zone a\ndone ksk_roll\n", 2),
    ("zone a\nabort nope\n", 2),
    ("zone a\nwait1 - 0\n", 2),
]

# Scripts that are no text.
BYTES = [
    (b"zone a\xFF\n", 1),
    (b"zone a\nadd-public K \xFFED448 0 0 yes\n", 2),
    (b"zone .\ndelete \xFE\n", 2),
]

TEXTS = [
    *(ZONE_LINES + LATER_LINES + WORDS_AND_SPACES),
    *(NUMBERS + ALGORITHMS + REFERENCES_FLAGS_AND_ROLLS),
]
SCRIPTS = [(text.encode(), line) for text, line in TEXTS] + BYTES

# Zone lines, and the lengths of their beginnings that are scripts: a zone line is a script by
# itself once it has a name.
BEGINNINGS = [
    (b"zone a\\.b\n", {6, 8, 9, 10}),
    (b"zone a..b\n", {6, 7}),
]


def scripts():
    """All scripts, each with the number of its first malformed line, or 0 if it has none."""
    yield from SCRIPTS
    for text, lengths in BEGINNINGS:
        for end in range(len(text) + 1):
            yield text[:end], 0 if end in lengths else 1
