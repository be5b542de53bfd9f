# The program as somebody sits at it: answers line by line, a reader that goes away, arguments.
import os
import select
import shutil
import subprocess
import tempfile
import time

SECONDS = 20  # for one answer


class Sitting:
    """The program with pipes on both sides, a line written and its answer read before more is written."""

    def __init__(self, program, *words):
        how = {"stdin": subprocess.PIPE, "stdout": subprocess.PIPE, "stderr": subprocess.PIPE}
        self.ran = subprocess.Popen([program, *words], **how)
        self.rest = b""

    def write(self, line):
        self.ran.stdin.write(line + b"\n")
        self.ran.stdin.flush()

    def answer(self):
        """The next line that is printed, or what has come of it where there is none in time."""
        end = time.monotonic() + SECONDS
        while b"\n" not in self.rest:
            left = end - time.monotonic()
            if left <= 0 or not select.select([self.ran.stdout], [], [], left)[0]:
                return self.rest
            more = os.read(self.ran.stdout.fileno(), 65536)
            if not more:
                return self.rest
            self.rest += more
        line, _, self.rest = self.rest.partition(b"\n")
        return line

    def ask(self, line):
        self.write(line)
        return self.answer()

    def close(self):
        """The status, with what was printed and not read, and what stands on standard error."""
        try:
            printed, said = self.ran.communicate(timeout=SECONDS)
        except subprocess.TimeoutExpired:
            self.ran.kill()
            printed, said = self.ran.communicate()
        return self.ran.returncode, self.rest + printed, said


RING = [b"rule 100 10 4 9", b"pans 23 31 18 27 40 12 35 20", b"ages 0 0 0 0 0 0 0 0"]


def line_by_line(group, program):
    sitting = Sitting(program)
    for line in RING:
        sitting.write(line)
    for label, line, expected in [
        ("a bag", b"bag", b"open 2 3 6 7: 100"),
        ("another", b"bag", b"open 0 1 4 5: 106"),
        ("none", b"bag", b"none"),
        ("a refusal", b"bag 3", b"refused 4 at 6"),
        ("a season of no bag", b"bags 0", b"bags 0: 0, 0 given away"),
    ]:
        group.same(f"{label} is answered before more is written", line, sitting.ask(line), expected)
    sitting.ran.stdin.write(b"bag 4\nbags")
    sitting.ran.stdin.flush()
    group.same("a line is answered while the next one is begun", b"bag 4, bags", sitting.answer(), b"refused 4 at 8")
    group.same("and that one when it is whole", b" 0", sitting.ask(b" 0"), b"bags 0: 0, 0 given away")
    group.same("the end of input ends it", b"", sitting.close(), (0, b"", b""))


def reader_goes_away(group, program):
    """Whoever reads the answers stops in the middle of them: the program ends soon, and by itself."""
    sitting = Sitting(program)
    first = sitting.ask(b"bag")
    group.same("the first answer", b"bag", first, b"refused 1 at 0")
    sitting.ran.stdout.close()
    begun = time.monotonic()
    try:
        while time.monotonic() < begun + SECONDS:
            sitting.ran.stdin.write(b"bag\n" * 1000)
    except (BrokenPipeError, ConnectionResetError):
        pass
    try:
        status = sitting.ran.wait(SECONDS)
    except subprocess.TimeoutExpired:
        sitting.ran.kill()
        status = None
    said = sitting.ran.stderr.read()
    group.same("it ends without a word when nobody reads on", "bag", (status, said), (2, b""))


def run(program, words, data=b"", **how):
    done = subprocess.run([program, *words], input=data, capture_output=True, timeout=60, **how)
    return done.returncode, done.stdout, done.stderr


def command_line(group, program, root):
    example = os.path.join(root, "examples", "first-bags.txt")
    with open(example, "rb") as commands, open(example[:-4] + ".out", "rb") as out:
        data, printed = commands.read(), out.read()
    for words in [[example], ["--", example], ["--explain", example], ["--strict", example]]:
        group.same("a file of commands", words, run(program, words), (0, printed, b""))
    for words in [[], ["-"], ["/dev/stdin"], ["--strict", "-"]]:
        group.same("standard input", words, run(program, words, data), (0, printed, b""))
    group.same("nothing to read", "/dev/null", run(program, ["/dev/null"]), (0, b"", b""))
    piped = subprocess.run(["bash", "-c", f"'{program}' <(cat '{example}')"], capture_output=True, timeout=60)
    group.same("a pipe as a file", "<(cat ..)", (piped.returncode, piped.stdout, piped.stderr), (0, printed, b""))
    handed_on(group, program, root, example, printed)
    told(group, program)
    wrong(group, program)
    refused(group, program)


def handed_on(group, program, root, example, printed):
    """`./weigh` hands its arguments on, wherever it is called from; tried in a folder where the program is newer than all sources."""
    with tempfile.TemporaryDirectory(prefix="weigh-test-") as room:
        os.makedirs(os.path.join(room, "crates"))
        os.makedirs(os.path.join(room, "target"))
        shutil.copy(os.path.join(root, "crates.txt"), room)
        shutil.copy(os.path.join(root, "weigh"), room)
        shutil.copy(program, os.path.join(room, "target", "weigh"))
        script = os.path.join(room, "weigh")
        group.same("./weigh FILE", example, run(script, [example], cwd="/"), (0, printed, b""))
        group.same("./weigh with a file that is piped", example, run("bash", ["-c", f"'{script}' --strict <(cat '{example}')"]), (0, printed, b""))
        group.same("./weigh of nothing", "/dev/null", run(script, ["/dev/null"]), (0, b"", b""))
        group.same("./weigh --strict", "bag", run(script, ["--strict"], b"bag\nbag\n"), (1, b"refused 1 at 0\n", b""))
        group.same("./weigh with a file that is not there", "nowhere", run(script, ["nowhere"])[:2], (2, b""))
        odd = os.path.join(os.fsencode(room), b"a \xff.txt")
        with open(odd, "wb") as file:
            file.write(b"bag\nbag\n")
        group.same("./weigh with a file whose name is no text", odd, run(script, [b"--strict", odd]), (1, b"refused 1 at 0\n", b""))
        os.remove(odd)
        group.same("./weigh with no file of such a name", odd, run(script, [odd]), (2, b"", b"weigh: no file of commands at " + odd + b"\n"))
        os.remove(os.path.join(room, "target", "weigh"))
        group.same("./weigh that is not built yet, and no file", "nowhere", run(script, ["nowhere"]), (2, b"", b"weigh: no file of commands at nowhere\n"))


def told(group, program):
    for word in ["--help", "-h"]:
        status, printed, said = run(program, [word])
        for part in [b"Usage: weigh", b"--strict", b"--explain", b"rule T A P O", b"handfuls W..", b"bags N"]:
            group.check(f"{word} has {part!r}", status == 0 and part in printed and said == b"")
    status, printed, said = run(program, ["--version"])
    group.check(f"--version names the toolchain: {printed!r}", status == 0 and b"rattle-kit-" in printed and printed.count(b"\n") == 1 and said == b"")


def wrong(group, program):
    for words in [["a", "b"], ["--strickt"], ["--strict=1"], ["-x"], ["--explain", "--explain"], ["/nonexistent/file"], ["/"]]:
        status, printed, said = run(program, words)
        group.check(f"wrong usage {words} ends with status 2 and says why: {status}, {printed!r}, {said!r}", status == 2 and printed == b"" and said)
    with open("/dev/full", "wb") as full:
        done = subprocess.run([program], input=b"bag\n", stdout=full, stderr=subprocess.PIPE, timeout=60)
    group.check(f"a full disk ends it with status 2 and is said: {done.stderr!r}", done.returncode == 2 and done.stderr.startswith(b"weigh: "))


# Lines that are turned away, with what their explanation has to say.
REASONS = [
    (b"bag\r", b"carriage return"),
    (b"pans\t1", b"a tab"),
    (b"pans  1", b"a blank too many"),
    (b" bag", b"a blank too many"),
    (b"pans 1 ", b"a blank too many"),
    (b"pans +1", b"a sign"),
    (b"bags 007", b"begins with 0"),
    (b"Pans 1", b"did you mean `pans`"),
    (b"weigh 1", b"--help"),
    (b"pans 1x", b"no digit"),
    (b"bag 3", b"bag: makes the best bag"),
    (b"fall 9 1", b"there and empty"),
    (b"bags", b"bags N: a season"),
    (b"bag", b"rule T A P O"),
]


def refused(group, program):
    for line, part in REASONS:
        status, printed, said = run(program, ["--explain"], b"#\n" + line + b"\n")
        expected = run(program, [], b"#\n" + line + b"\n")
        group.same("--explain leaves the answers as they are", line, (status, printed), expected[:2])
        group.check(f"{line!r} is explained by {part!r}: {said!r}", said.startswith(b"line 1: ") and part in said and said.count(b"\n") == 1)
    strict = run(program, ["--strict"], b"\n".join(RING) + b"\nbag\nbag 1\nbag\n")
    group.same("--strict ends at the first refusal", "bag 1", strict, (1, b"open 2 3 6 7: 100\nrefused 4 at 4\n", b""))
    group.same("--strict is no matter where nothing is turned away", "bag", run(program, ["--strict"], b"\n".join(RING) + b"\nbag\n"), (0, b"open 2 3 6 7: 100\n", b""))
