"""The manual's examples: each is run where examples/ is, and what it says must be what the program writes."""
import re
import shutil
import subprocess
import tempfile

from asked import PROGRAM, ROOT, fail

MANUAL = ROOT / "program/ulmarzhe.1"
EXAMPLE = re.compile(r"^\.EX\n(.*?)^\.EE\n", re.MULTILINE | re.DOTALL)


def written(text):
    """What a reader sees of lines of the manual."""
    return text.replace("\\-", "-").replace("\\e", "\\").replace("\\&", "")


def as_written(_):
    """An example is a command after `$ `, what it writes, and `...` where that goes on; `$ echo $?` asks for the status."""
    manual, count = MANUAL.read_text(), 0
    with tempfile.TemporaryDirectory() as folder:
        shutil.copytree(ROOT / "examples", folder, dirs_exist_ok=True)
        for example in EXAMPLE.findall(manual):
            lines = written(example).splitlines()
            commands = [line[2:] for line in lines if line.startswith("$ ")]
            script = "\n".join(commands).replace("ulmarzhe ", f"{PROGRAM} ")
            done = subprocess.run(["sh"], cwd=folder, input=script.encode(), stdout=subprocess.PIPE, check=False)
            wanted = [line for line in lines if not line.startswith("$ ")]
            got = done.stdout.decode().splitlines()
            if wanted[-1] == "...":
                wanted, got = wanted[:-1], got[: len(wanted) - 1]
            if wanted != got:
                fail(f"the manual's example of {commands[0]}: {got} is written")
            count += 1
    shown = set(re.findall(r"^\.SS (\w+)", manual, re.MULTILINE))
    told = subprocess.run([PROGRAM, "help"], stdout=subprocess.PIPE, check=True).stdout.decode()
    if shown != set(re.findall(r"^ulmarzhe (\w+)(?: [A-Z].*)?$", told, re.MULTILINE)):
        fail("the manual and help have other commands")
    if any(len(line) > 80 for line in told.splitlines()):
        fail("help has a line of more than 80 columns")
    return f"{count} examples of the manual"


TESTS = (as_written,)
