"""Want of memory: one script under limits that grow by small steps, so that it runs out at one place after another."""

import resource
import subprocess

import model

STEP, MOST = 32 << 10, 64 << 20  # bytes
TOLD = b"weigh: out of memory\n"
SCRIPT = b"".join([
    b"rule 100 10 6 9\npans", b" 30" * 24, b"\nages", b" 0" * 24, b"\nbag\n",
    b"fall", b" 30" * 4, b"\nfall", b" 25" * 30_000, b"\nbags 5000\nfall", b" 25" * 90_000, b"\nbags 5000\n",
    b"handfuls", b" 25" * 120_000, b"\nbag\n# ", b"x" * 900_000, b"\nbags 0\n",
])


def short_of(program, most):
    def limited():
        resource.setrlimit(resource.RLIMIT_AS, (most, most))

    done = subprocess.run([program], input=SCRIPT, capture_output=True, timeout=60, preexec_fn=limited)
    return done.returncode, done.stdout, done.stderr


def want_of_memory(group, program):
    """It says that memory ran out, with every answer before that whole and right, or it answers all."""
    answers = model.answers(SCRIPT)
    most, held = 0, set()
    while most < MOST:
        most += STEP
        status, printed, said = short_of(program, most)
        if status == 0:
            break
        if said == TOLD:  # with less the program is not even loaded
            lines = printed.splitlines(keepends=True)
            group.check(f"with {most} bytes: {status}, {printed!r}", status == 2 and answers.splitlines(keepends=True)[: len(lines)] == lines)
            held.add(printed)
        else:
            group.check(f"with {most} bytes it says {said!r} and answers {printed!r}", not held and not printed)
    group.same("with enough memory it answers all", SCRIPT[:60], (status, printed, said), (0, answers, b""))
    group.check(f"it runs out at several lines, not at {len(held)}", len(held) > 2)
