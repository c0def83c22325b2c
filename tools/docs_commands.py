"""Runs the commands in pages in a copy of the repository, and compares their output and the pictures that they draw
with the pages."""
import os
import re
import shutil
import signal
import subprocess
import tarfile
import tempfile

from unproved import kept

TOP = os.path.dirname(os.path.dirname(os.path.abspath(__file__)))
# The beginnings of commands that aren't run, and the reasons.
LEFT_OUT = {
    "sudo ": "needs root, and namespaces, the network or a package",
    "(cd crates/": "proves",
    "packaging/build --out": "packs proved programs",
    "bindings/c/build ": "takes minutes; bindings/test runs this and the programs that the page shows",
    "cc judge.c ": "needs the library",
    "./judge ": "needs the library",
    "cp DIR/libtcpwit": "needs the library",
    "CGO_": "needs the library",
    "TCPWIT_LIB_DIR=": "needs the library",
    "pip wheel ": "bindings/test builds a wheel",
    "./test": "calls this script, and proves",
    "tools/runs.py": "builds the tests; it is a suite of ./test",
    "importer/test": "is a suite of ./test",
    "stacks/run lwip": "needs a package; stacks/test runs some of the scenarios",
    "stacks/run ./my-stack --profile my-profile --out": "takes minutes; stacks/test --all runs all scenarios",
    "tcpdump ": "needs root",
    "strace -f --decode-fds=socket": "logs what a capture on another machine shows",
    "parallel ": "needs two machines",
    "tcpwit-status --cases N": "reads what parallel prints",
    "read files cases": "needs a cluster",
    "mkdir lines": "needs a cluster",
    "sbatch ": "needs a cluster",
    "cat lines/": "needs a cluster",
    "tcpwit check < /usr/share": "needs the installed package",
    "bench/run ": "measures two builds",
    "(cd ../": "builds in another checkout",
    "python3 bench/stand_in.py": "builds two programs",
    "python3 bench/many_cases.py": "writes a large file",
    "python3 bench/whole.py": "measures built programs",
    "time crates/": "needs proved programs",
    "python3 tools/soak/": "takes minutes",
}
# The beginnings of texts that are neither commands nor the output of the command before them.
SHOWN = ("//! Judges a case.", "#include <", "import tcpwit", "use tcpwit", "package judge", "[dev-dependencies]",
         "require tcpwit")
# Statuses other than 0, of commands whose page shows no output. On a busy machine, `record` can end with 1.
STATUSES = {"tcpwit record ": 1, "strace -f -o calls": 5}
COMMAND = re.compile(r"(\./|sudo |cc |cp |pip |TCPWIT_LIB_DIR=|CGO_|importer/|stacks/|packaging/|bindings/|bench/"
                     r"|tools/|python3 |\(cd |\{ "
                     r"|(tcpwit|tcpwit_lab|tcpdump|strace|for|parallel|read|mkfifo|cat|sed|grep) )")
# A command in a sentence or a table. One with `..` is incomplete, and one with N has a number to be chosen.
INLINE = re.compile(r"(?<!`)`((?:\./)?tcpwit(?:_lab)? [^`\s]+ (?:(?!\.\.|\bN\b)[^`\n])+)`")
BLOCK = re.compile(r"^(?:    .*\n)+", re.M)
VERDICT = re.compile(r"(yes|no|bad) ")
PICTURE = re.compile(r"!\[[^\]]*\]\(([^)\s]+\.svg)\)")
LIMIT = 120
# Writes the status of each command that fails, and the command, to the file descriptor 9.
TRAP = "set -E; trap 'echo \"$? $BASH_COMMAND\" >&9' ERR\n"


class Commands:
    """Commands of a page that are run together, and the lines that they should print, if the page shows them."""

    def __init__(self, place, lines):
        self.place = place
        self.lines = lines
        self.end = None
        self.output = None

    def left_out(self):
        """The beginnings of LEFT_OUT that keep a command from being run."""
        return [start for line in self.lines for start in LEFT_OUT if line.startswith(start)]

    def script(self):
        """The commands among them that are run."""
        return "\n".join(line for line in self.lines if not line.startswith(tuple(LEFT_OUT)))


def command_lines(block):
    """The commands of a block, without the remarks after four spaces."""
    joined = re.sub(r"\\\n *", "", re.sub(r"^    ", "", block, flags=re.M))
    return [re.split(r" {4,}", line)[0].rstrip() for line in joined.splitlines()]


def commands_of(text):
    """The commands of a page, in order, and the places of blocks that belong to none."""
    found = [Commands(match.start(), [match[1]]) for match in INLINE.finditer(text)]
    last, strangers = None, []
    for match in BLOCK.finditer(text):
        body = re.sub(r"^    ", "", match[0], flags=re.M)
        if COMMAND.match(body):
            last = Commands(match.start(), command_lines(match[0]))
            last.end = match.end()
            found.append(last)
        elif last and last.output is None and (not text[last.end:match.start()].strip() or VERDICT.match(body)
                                               and not body.startswith(SHOWN)):
            last.output = body.splitlines()
        elif not body.startswith(SHOWN):
            strangers.append(match.start())
    return sorted(found, key=lambda commands: commands.place), strangers


def fits(wanted, printed):
    """Whether the printed lines match those in a page, where `..` is any number of lines."""
    pattern = "".join("(?:.*\n)*" if line.strip() == ".." else re.escape(line.rstrip()) + " *\n" for line in wanted)
    return re.fullmatch(pattern, "".join(line + "\n" for line in printed)) is not None


def unexpected(failed):
    """The commands that failed with a status that STATUSES doesn't have."""
    for line in failed.splitlines():
        status, command = line.split(" ", 1)
        if not any(command.startswith(start) and int(status) == known for start, known in STATUSES.items()):
            yield f"`{command}` ended with status {status}"


class Copy:
    """A copy of the repository with built programs, and a folder for each page with the files that its commands
    read."""

    def __init__(self, folder, top=TOP):
        self.folder = folder
        self.top = f"{folder}/copy"
        shutil.copytree(top, self.top, symlinks=True,
                        ignore=shutil.ignore_patterns(".git", ".built", "out", "__pycache__"))
        for path in (f"{self.top}/.built", f"{folder}/bin"):
            os.mkdir(path)
        for name in ("tcpwit", "tcpwit_lab"):
            shutil.copyfile(kept(name), f"{self.top}/.built/{name}")
            os.chmod(f"{self.top}/.built/{name}", 0o755)
            os.symlink(f"{self.top}/.built/{name}", f"{folder}/bin/{name}")
        for name in ("tcpwit-junit", "tcpwit-status", "tcpwit-parts"):
            os.symlink(f"{self.top}/packaging/lines/{name}", f"{folder}/bin/{name}")

    def page(self, page, text):
        """A folder like the top of the repository, with the files that a page's commands read."""
        at = f"{self.folder}/{page.replace('/', '-')}"
        os.mkdir(at)
        for name in os.listdir(self.top):
            os.symlink(f"{self.top}/{name}", f"{at}/{name}")
        trace, case = f"{self.top}/crates/test_cases/data/kernel/lost-fin.trace", f"{self.top}/examples/handshake.case"
        os.mkdir(f"{at}/DIR")
        for name in ("run.trace", "TRACE", "DIR/run.trace"):
            shutil.copyfile(trace, f"{at}/{name}")
        for name in ("run.case", "CASE", "DIR/run.case"):
            shutil.copyfile(case, f"{at}/{name}")
        with open(case, encoding="ascii") as file:
            whole = file.read()
        files = {"CASES": f"{whole}end\n" * 2}
        if "mkfifo F G" not in text:
            files |= dict(zip("FG", (whole[:whole.index("witness ")], whole[whole.index("witness "):])))
        for name, content in files.items():
            with open(f"{at}/{name}", "w", encoding="ascii") as file:
                file.write(content)
        self.captures(at)
        return at

    def captures(self, at):
        """The captures and logs of a recording, with the names in docs/how-to/calls.md."""
        with tarfile.open(f"{self.top}/importer/tests/data/recordings.tar.xz") as archive:
            for host in (0, 1):
                for source, name in (("pcap", f"c{host}.pcap"), ("log", f"s{host}.log")):
                    with open(f"{at}/{name}", "wb") as file:
                        file.write(archive.extractfile(f"./asyncio/host{host}.{source}").read())

    def run(self, script, folder):
        """A script's output, and the commands in it that failed."""
        environment = {"PATH": f"{self.folder}/bin:/usr/bin:/bin", "LC_ALL": "C", "PYTHONDONTWRITEBYTECODE": "1",
                       "HOME": self.folder}
        with tempfile.TemporaryFile("w+") as printed, tempfile.TemporaryFile("w+") as failed:
            shell = subprocess.Popen(["bash", "-c", f"exec 9>&{failed.fileno()}\n{TRAP}{script}\nwait"], cwd=folder,
                                     env=environment, stdin=subprocess.DEVNULL, stdout=printed,
                                     stderr=subprocess.STDOUT, pass_fds=[failed.fileno()], start_new_session=True)
            try:
                shell.wait(LIMIT)
                late = ""
            except subprocess.TimeoutExpired:
                os.killpg(shell.pid, signal.SIGKILL)
                shell.wait()
                late = f"124 {script.splitlines()[0]}\n"
            for file in (printed, failed):
                file.seek(0)
            return printed.read().splitlines(), late + failed.read()


def faults_of(commands, copy, folder):
    """The faults of some commands of a page."""
    script = commands.script()
    if not script:
        return []
    printed, failed = copy.run(script, folder)
    shown = commands.output is not None and not commands.left_out()
    if shown and not fits(commands.output, printed):
        return ["prints other lines than the page shows:", *(f"    {line}" for line in printed)]
    found = [] if shown else list(unexpected(failed))
    return found + [f"    {line}" for line in printed[-5:]] if found else []


def picture_faults(page, text, top, at):
    """The faults of a page's pictures, each with its place. A command of the page has to draw each one into a file of
    the same name."""
    for match in PICTURE.finditer(text):
        name = os.path.basename(match[1])
        drawn = f"{at}/{name}"
        if not os.path.exists(drawn):
            yield match.start(), f"no command of this page writes {name}"
            continue
        with open(drawn, "rb") as new, open(os.path.join(top, os.path.dirname(page), match[1]), "rb") as old:
            if new.read() != old.read():
                yield match.start(), (f"{match[1]} isn't what the page's command draws: run that command, "
                                      "and keep its file")


def faults(pages, top=TOP):
    """The faults of all pages' commands, each with its page and line, and how many commands were run. `pages` maps
    names to texts."""
    found, used, count = [], set(), 0
    with tempfile.TemporaryDirectory() as folder:
        copy = Copy(folder, top)
        for page, text in pages.items():
            at = copy.page(page, text)
            blocks, strangers = commands_of(text)
            line = lambda place: f"{page}:{text.count(chr(10), 0, place) + 1}"
            found += [f"{line(place)}: neither a command nor what one prints: see COMMAND and SHOWN"
                      for place in strangers]
            for commands in blocks:
                used.update(commands.left_out())
                count += bool(commands.script())
                found += [f"{line(commands.place)}: {fault}" for fault in faults_of(commands, copy, at)]
            found += [f"{line(place)}: {fault}" for place, fault in picture_faults(page, text, top, at)]
    return found + [f"LEFT_OUT: no page has a command that begins with {start!r}" for start in LEFT_OUT
                    if start not in used], count
