# Scripts for the program: random ones of all commands, and hostile input with what the language says of it.

LIMIT = 1_000_000
MEGABYTES_10 = 10_000_000

# ---- random scripts


def line(word, numbers=()):
    return " ".join([word, *map(str, numbers)]).encode()


class Maker:
    """Makes the lines of one script: a ring of some size and scale, mostly in order."""

    def __init__(self, r):
        self.r = r
        self.count = r.randint(1, 8)
        # Small weights for ties, those of the trade, and some that are too heavy for a table by weight.
        self.unit, self.most = r.choice([(1, 3), (1, 12), (5, 12), (1, 60), (1000, 1000), (1, LIMIT)])
        self.old = r.randint(1, 6)
        self.mixed = r.randint(1, 4)

    def weight(self):
        if self.r.random() < 0.06:
            return 0
        return self.r.randint(1, self.most) * self.unit

    def rarely(self, usual, wrong, share=0.04):
        return wrong if self.r.random() < share else usual

    def too_large(self):
        return self.r.choice([LIMIT + 1, 2**32 - 1, 2**32, 2**64, 10**30])

    def spoilt(self, numbers):
        """Now and then one number too large, one missing or one too many."""
        numbers = list(numbers)
        if numbers and self.r.random() < 0.02:
            numbers[self.r.randrange(len(numbers))] = self.too_large()
        if numbers and self.r.random() < 0.02:
            del numbers[self.r.randrange(len(numbers))]
        if self.r.random() < 0.02:
            numbers.append(self.weight())
        return numbers

    def rule(self):
        heaviest = self.unit * self.most
        target = min(LIMIT, self.r.randint(1, 3 * heaviest))
        above = min(LIMIT, self.r.choice([0, 1, heaviest // 4, heaviest, heaviest, 3 * heaviest]))
        pans = self.rarely(self.r.choice([2, 3, 4, 4, 5, 8, 24, LIMIT]), self.r.choice([0, 1]), 0.1)
        age = self.rarely(self.old + self.r.choice([0, 1, 1, 2, 3, 5, LIMIT // 2]), 0)
        return line("rule", self.spoilt([self.rarely(target, 0), above, pans, age]))

    def window(self):
        """The least and the most of a kind: loose, one that binds from either side, and now and then one that can't be kept."""
        heaviest = self.unit * self.most
        least = min(LIMIT, self.r.choice([0, 0, 1, self.r.randint(0, heaviest), self.r.randint(0, 2 * heaviest)]))
        most = min(LIMIT, self.r.choice([LIMIT, least, least + heaviest // 2, least + 2 * heaviest, 3 * heaviest]))
        return self.rarely([least, most], [most + 1, most], 0.05)

    def mixed_rule(self):
        plain = self.rule().split(b" ")[1:5]
        windows = [number for _ in range(self.rarely(self.mixed, self.r.choice([0, 5, 6]))) for number in self.window()]
        return line("rule", self.spoilt([number.decode() for number in plain] + windows))

    def kinds(self):
        known = [self.rarely(self.r.randrange(self.mixed), 9, 0.01) for _ in range(self.rarely(self.count, self.r.randint(0, 9)))]
        return line("kinds", self.spoilt(known))

    def mix(self):
        return line("mix", self.r.choice([[], [], [self.rarely(self.r.randint(0, 12), self.too_large())]]))

    def mixture(self):
        """All that a mixed bag takes, anew, and some of these."""
        return b"\n".join([self.mixed_rule(), self.pans(), self.ages(), self.kinds(), self.handfuls(), self.mix(), self.mix()])

    def pans(self):
        return line("pans", self.spoilt(self.weight() for _ in range(self.rarely(self.count, self.r.choice([0, 25])))))

    def ages(self):
        return line("ages", self.spoilt(self.r.randint(0, self.old) for _ in range(self.rarely(self.count, 0))))

    def handfuls(self):
        return line("handfuls", self.spoilt(self.weight() for _ in range(self.r.randint(0, 9))))

    def bag(self):
        return line("bag")

    def fall(self, pan=None):
        pan = self.r.randint(0, self.count) if pan is None else pan
        return line("fall", [self.rarely(pan, self.too_large()), self.rarely(self.weight(), self.too_large())])

    def falls(self):
        """A handful for each pan, which those that are not empty turn away."""
        return b"\n".join(self.fall(pan) for pan in range(self.count))

    def ring(self):
        """All that a bag and a season take, anew."""
        return b"\n".join([self.rule(), self.pans(), self.ages(), self.handfuls()])

    def bags(self):
        return line("bags", [self.rarely(self.r.randint(0, 12), self.too_large())])

    def remark(self):
        return self.r.choice([b"", b"", b"#", b"# a remark", b"#\tbag\r", b"# \xff\x00"])

    def garbled(self):
        """A line of any kind with some bytes changed, put in or left out."""
        text = bytearray(self.any())
        for _ in range(self.r.randint(1, 2)):
            at = self.r.randint(0, len(text))
            byte = self.r.choice(b" \t\r\x00\xff\x80#0019abgs+-._:") if self.r.random() < 0.8 else self.r.randrange(256)
            text[at : at + self.r.randint(0, 1)] = bytes([byte if byte != 10 else 13] * self.r.randint(0, 1))
        return bytes(text)

    def any(self):
        kinds = [self.rule, self.pans, self.ages, self.handfuls, self.bag, self.fall, self.bags]
        kinds += [self.falls, self.ring, self.remark, self.garbled, self.mixture, self.mixed_rule, self.kinds, self.mix]
        return self.r.choices(kinds, [2, 2, 2, 1, 12, 3, 3, 3, 3, 1, 2, 3, 1, 1, 4])[0]()

    def script(self):
        start = [self.ring()] if self.r.random() < 0.9 else []
        lines = start + [self.any() for _ in range(self.r.randint(1, 20))]
        return b"\n".join(lines) + self.r.choice([b"\n", b"\n", b""])


def random_scripts(r, count):
    for _ in range(count):
        yield Maker(r).script()


# ---- hostile input

SETUP = b"rule 50 5 4 9\npans 23 0 18 27\nages 0 1 2 3\nhandfuls 30 20 25\n"
RING = b"rule 50 5 4 9\npans 23 0 18 27 31 12 40 9\nages 0 1 2 3 4 0 2 1\nhandfuls 30 20 25 14\n"
SETUPS = [b"", SETUP, b"pans 1 0\n", RING, RING + b"bag\nbag\n", RING + b"bags 3\n"]

# Tells what is kept: the rule by a bag, the handfuls by a season, then the ages by rules under which ever younger pans are
# old, and what lies in the pans by a bag of each.
PROBE = b"bag\nbags 2\n" + b"".join(b"rule 1 1000000 24 %d\nbag\nfall 1 9\n" % age for age in (5, 4, 3, 2, 1)) + b"rule 1 1000000 1 1000000\n" + b"bag\n" * 4

COMMANDS = [b"rule 50 5 4 9", b"pans 23 0 18 27", b"ages 0 1 2 3", b"handfuls 30 20", b"bag", b"fall 1 25", b"bags 3", b"kinds 0 1 0 1", b"mix", b"mix 2"]


def one_byte_changed():
    """Each command with each of its bytes changed to every other, with one put in, and with one left out."""
    for command in COMMANDS:
        lines = []
        for at in range(len(command) + 1):
            for byte in map(bytes, zip(b for b in range(256) if b != 10)):
                lines += [command[:at] + byte + command[at:], b"bag", command[:at] + byte + command[at + 1 :], b"bag"]
            lines += [command[:at] + command[at + 1 :], b"bag"]
        yield SETUP + b"\n".join(lines) + b"\n"


def cut_short():
    """A script that ends anywhere."""
    whole = b"# a ring\n" + SETUP + b"bag\n\nfall 1 25\nbags 3\nbags\nbag\n"
    for end in range(len(whole) + 1):
        yield whole[:end]


def turned_away(setup):
    """Lines that are turned away whatever stands before them, with what is printed."""
    number = setup.count(b"\n")
    unreadable = [b"\xff", b"b\xc3\xa4g", b"\xef\xbb\xbfbag", b"bag\x00", b"\x00", b"bag\r", b"\r", b"bag\t", b" ", b" bag", b"bag "]
    unreadable += [b"rule 50 5 4 09", b"rule 60 5 4 9\r", b"rule  60 5 4 9", b"rule 60 5 4 9 ", b"rule\t60 5 4 9", b"rule 60 5 4 -9", b"rule60 5 4 9"]
    unreadable += [b"pans 1 2 3 4\x00", b"pans +1 2", b"pans 1, 2", b"ages 1 2 3 4\xa0", b"ages 1.0", b"handfuls 7 07", b"handfuls\xc2\xa07"]
    unreadable += [b"pans \xd9\xa1", b"pans 1 2 3 4\xe2\x80\xa8bag", b"fall 1", b"fall 1 2 3", b"fall 1 02", b"fall", b"bags", b"bags 1 2", b"bags -1", b"Bag"]
    unreadable += [b"bag bag", b"bag 0", b"rule 60 5 4 9 #", b"pans " + b"0" * 1000, b"x" * 100_000, b"fall 9 25", b"fall 8 0"]
    yield from ((text, b"refused 4 at %d\n" % number) for text in unreadable)
    for pan, grams in [(0, LIMIT + 1), (1, 2**32), (9, 10**999)]:
        yield b"fall %d %d" % (pan, grams), b"refused 3 at %d\n" % pan
    if setup.startswith(b"rule"):
        yield b"bags 1000001", b"refused 4 at %d\n" % number
        yield b"bags " + b"9" * 1000, b"refused 4 at %d\n" % number


def every_byte():
    """Each byte as a line of its own: all are turned away but a remark."""
    others = [byte for byte in range(256) if byte != 10]
    data = b"".join(bytes([byte, 10]) for byte in others)
    return data, b"".join(b"refused 4 at %d\n" % at for at, byte in enumerate(others) if byte != ord("#"))


def hostile():
    """Input that nobody would write, by a name, with what is to be printed."""
    made = b"open 0 3: 50\n"
    digits = b"7" * 1000
    long = {
        "letters": b"a" * MEGABYTES_10,
        "blanks": b" " * MEGABYTES_10,
        "zero bytes": bytes(MEGABYTES_10),
        "bytes that are no text": b"\xff" * MEGABYTES_10,
        "carriage returns": b"\r" * MEGABYTES_10,
        "digits": b"1" * MEGABYTES_10,
        "noughts of a rule": b"rule " + b"0" * MEGABYTES_10,
        "a word and a letter at its end": b"pans" + b" 1" * (MEGABYTES_10 // 2) + b"x",
    }
    yield "no input", b"", b""
    yield "one line end", b"\n", b""
    yield "one byte", b"b", b"refused 4 at 0\n"
    yield "one zero byte", b"\0", b"refused 4 at 0\n"
    yield "every byte", *every_byte()
    yield "a million empty lines", b"\n" * LIMIT, b""
    yield "a bag after a million empty lines", SETUP + b"\n" * LIMIT + b"bag", made
    yield "nonsense after a million empty lines", b"\n" * LIMIT + b"?", b"refused 4 at 1000000\n"
    yield "a million bags of nothing", b"bag\n" * LIMIT, b"refused 1 at 0\n" * LIMIT
    for name, text in long.items():
        yield "ten megabytes of " + name, SETUP + text + b"\nbag\n", b"refused 4 at 4\n" + made
        yield "ten megabytes at the end of " + name, SETUP + b"bag\n" + text, made + b"refused 4 at 5\n"
    yield "a remark of ten megabytes", SETUP + b"#" + b"\xff" * MEGABYTES_10 + b"\nbag\n", made
    yield "a rule of ten megabytes", SETUP + b"rule 50 " + b"9" * MEGABYTES_10 + b" 4 9\nbag\n", b"refused 1 at 1\n"
    yield "five million numbers in a rule", b"rule" + b" 1" * 5_000_000 + b"\nbag\n", b"refused 1 at 4\n"
    yield "five million pans", SETUP + b"pans" + b" 1" * 5_000_000 + b"\nbag\n", b"refused 2 at 5000000\n"
    yield "five million ages", SETUP + b"ages" + b" 1" * 5_000_000 + b"\nbag\n", b"refused 2 at 5000000\n"
    yield "a handful into the last of five million pans", b"pans" + b" 0" * 5_000_000 + b"\nfall 4999999 7\nfall 4999999 7\n", b"refused 4 at 2\n"
    yield "five million handfuls", SETUP + b"handfuls" + b" 1" * 5_000_000 + b" 1000001\nbags 1\n", b"refused 3 at 5000008\n"
    for place in range(4):
        numbers = [b"50", b"5", b"4", b"9"]
        numbers[place] = digits
        yield f"a thousand digits at {place} of a rule", SETUP + b"rule " + b" ".join(numbers) + b"\nbag\n", b"refused 1 at %d\n" % place
        yield f"a thousand digits in pan {place}", SETUP + b"pans " + b" ".join(numbers) + b"\nbag\n", b"refused 3 at %d\n" % place
        yield f"a thousand digits for the age of {place}", SETUP + b"ages " + b" ".join(numbers) + b"\nbag\n", b"refused 3 at %d\n" % (4 + place)
        yield f"a thousand digits at {place} of a list", SETUP + b"handfuls " + b" ".join(numbers) + b"\nbags 1\n", b"refused 3 at %d\n" % (8 + place)
    yield "a thousand digits fall", SETUP + b"fall 1 " + digits + b"\nbag\n", b"refused 3 at 1\n" + made
    yield "into a pan of a thousand digits", SETUP + b"fall " + digits + b" 1\nbag\n", b"refused 4 at 4\n" + made
    yield "a season of a thousand digits", SETUP + b"bags " + digits + b"\nbag\n", b"refused 4 at 4\n" + made
    yield "a thousand noughts", SETUP + b"bags " + b"0" * 1000 + b"\nbag\n", b"refused 4 at 4\n" + made
    yield "no end of the last line", SETUP + b"bag", made
    yield "cut in the middle of a word", SETUP + b"bag\nba", made + b"refused 4 at 5\n"
    yield "cut after a blank", SETUP + b"bag\nrule ", made + b"refused 4 at 5\n"
    yield "lines that end as on another system", (SETUP + b"\nbag\n# end\n").replace(b"\n", b"\r\n"), b"".join(b"refused 4 at %d\n" % at for at in range(6))
    yield "lines that end in carriage returns alone", (SETUP + b"bag\n").replace(b"\n", b"\r"), b"refused 4 at 0\n"
    yield "tabs for blanks", SETUP.replace(b" ", b"\t"), b"".join(b"refused 4 at %d\n" % at for at in range(4))
    yield "text of two bytes a letter", (SETUP + b"bag\n").decode().encode("utf-16-le"), b"".join(b"refused 4 at %d\n" % at for at in range(6))
    yield "the longest season", b"rule 100 0 2 9\npans 50 50\nages 0 0\nhandfuls 50\nbags 1000000\n", b"bags 1000000: 100000000, 0 given away\n"
    yield "the heaviest bag", b"rule 1000000 1000000 24 0\npans 1000000 1000000\nages 1000000 1000000\nbag\n", b"open 0 1: 2000000\n"
