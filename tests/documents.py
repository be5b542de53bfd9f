# What the documents show is run and compared. Three ways of writing it are known, in README.md and docs/GUIDE.md:
#
#   - a block with lines `$ ./weigh ..`: each is run by a shell at the top of the repository, with the built program for `./weigh`,
#     and prints the lines behind it, up to the next such line or the block's end;
#   - a block of commands, a line each, and in the paragraph behind it "prints `ANSWER`", or "prints" and a block of the answers.
#     In the same paragraph, "A second `bag` prints `ANSWER`" goes on with that command (also third, fourth, fifth);
#   - in a sentence, "`COMMAND` and then `COMMAND` prints `ANSWER`".
#
# A block of commands behind which nothing is said of what it prints is not run.
import os
import re
import subprocess

PAGES = ["README.md", os.path.join("docs", "GUIDE.md")]
WORDS = "rule|pans|ages|bag|fall|handfuls|bags|kinds|mix|#"
BLOCK = re.compile(r"^```[^\n]*\n(.*?)^```[ \t]*\n", re.M | re.S)
COMMANDS = re.compile(rf"((?:{WORDS})\b[^\n]*\n|#[^\n]*\n)+")
PRINTS = re.compile(r"\bprints `([^`]*)`")
PRINTS_BLOCK = re.compile(r"\s*prints:?\n\n?```[^\n]*\n(.*?)^```[ \t]*\n", re.M | re.S)
AGAIN = re.compile(r"\b(?:second|third|fourth|fifth) `([^`]*)` prints `([^`]*)`")
INLINE = re.compile(r"((?:`[^`]+` and then )+)`([^`]+)` prints `([^`]+)`")


def shell_blocks(text):
    """Each command of a block with `$`, and what it prints."""
    for block in BLOCK.finditer(text):
        for part in re.split(r"^\$ ", block[1], flags=re.M)[1:]:
            command, _, printed = part.partition("\n")
            if "./weigh" in command:
                yield command, printed


def command_blocks(text):
    """The commands of each block that is told to print something, and what they print."""
    for block in BLOCK.finditer(text):
        if not COMMANDS.fullmatch(block[1]):
            continue
        behind = text[block.end() :]
        answers = PRINTS_BLOCK.match(behind)
        if answers:
            yield block[1], answers[1]
            continue
        paragraph = behind.lstrip("\n").partition("\n\n")[0]
        answer = PRINTS.search(paragraph)
        if answer:
            script, printed = block[1], answer[1] + "\n"
            yield script, printed
            for command, more in AGAIN.findall(paragraph):
                script, printed = script + command + "\n", printed + more + "\n"
                yield script, printed


def sentences(text):
    for before, last, printed in INLINE.findall(BLOCK.sub("", text)):
        yield "".join(f"{it}\n" for it in [*re.findall(r"`([^`]+)`", before), last]), printed + "\n"


def shown(group, program, root):
    for page in PAGES:
        with open(os.path.join(root, page), encoding="utf-8") as file:
            text = file.read()
        for command, printed in shell_blocks(text):
            built = command.replace("./weigh", f"'{program}'")
            done = subprocess.run(["bash", "-c", built], cwd=root, capture_output=True, text=True, timeout=60)
            group.same(page, command, done.stdout, printed)
        for script, printed in [*command_blocks(text), *sentences(text)]:
            done = subprocess.run([program], input=script, capture_output=True, text=True, timeout=60)
            group.same(page, script, done.stdout, printed)
