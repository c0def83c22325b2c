"""The scenarios that a run selects: by their names, or those that failed in the last run."""
import contextlib
import hashlib
import os
import shutil

from . import scenarios, variants
from .files import TOP, naming, read, stop, why_no_file
from .programs import folder_of
from .texts import shown

ENDING = ".scenario"


def paths_of(words):
    """The scenarios that these words select, each once, as pairs of a file and a variant's suffix, empty for the
    scenario itself; all files if there are no words. A complete name or a file selects one."""
    folder = os.path.join(TOP, "scenarios")
    paths = [os.path.join(folder, name) for name in sorted(os.listdir(folder)) if name.endswith(ENDING)]
    names = {os.path.basename(path): path for path in paths}
    if not words:
        return [(path, "") for path in paths]
    named = []
    for word in words:
        base, suffix = (word, "") if os.path.isfile(word) else variants.split(word)
        whole = names.get(base.removesuffix(ENDING) + ENDING)
        begun = [names[name] for name in names if base and name.startswith(base)]
        found = [whole] if whole else [os.path.realpath(base)] if os.path.isfile(base) else begun
        if not found:
            stop(f"{word}: {why_no_file(base) or 'not a regular file'}" if os.path.dirname(word)
                 else f"{word!r} is neither a file nor the beginning of a scenario's name: see {folder}")
        fit = [path for path in found if len(found) == 1 or not suffix or is_fit(path, suffix)]
        named += [(path, suffix) for path in fit or stop(f"{word}: none of these scenarios can be varied so")]
    return list(dict.fromkeys(named))


def scenario_at(path):
    """The scenario in a file."""
    scenario = scenarios.read(shown(os.path.basename(path).rsplit(".", 1)[0]), read(path))
    scenario.path = path
    return scenario


def is_fit(path, suffix):
    """Whether the scenario in a file may be varied so."""
    return variants.is_fit(scenario_at(path), suffix)


def scenarios_of(words, vary=False):
    """The scenarios that these words select. `vary`: each is followed by its usual variants."""
    for path, suffix in paths_of(words):
        scenario = scenario_at(path)
        yield variants.variant(scenario, suffix) if suffix else scenario
        for usual in variants.USUAL if vary and not suffix else ():
            if variants.is_fit(scenario, usual):
                yield variants.variant(scenario, usual)


def memory(stack):
    """The file that lists the scenarios that failed in this stack's last run."""
    caches = os.environ.get("XDG_CACHE_HOME") or os.path.expanduser("~/.cache")
    path = os.path.realpath(folder_of(stack) or shutil.which(stack) or stack)
    return os.path.join(caches, "tcpwit", "failed-" + hashlib.sha256(os.fsencode(path)).hexdigest()[:20])


def remember(stack, paths):
    """Saves the scenarios that failed, for --failed. A file that can't be written isn't an error."""
    with contextlib.suppress(OSError):
        os.makedirs(os.path.dirname(memory(stack)), exist_ok=True)
        with open(memory(stack), "w", encoding="utf-8", errors="surrogateescape") as file:
            file.writelines(path + "\n" for path in paths)


def failed_last(stack):
    """The scenarios that failed in this stack's last run."""
    if not os.path.exists(memory(stack)):
        stop(f"no earlier run of {stack} is recorded")
    with naming(memory(stack)), open(memory(stack), encoding="utf-8", errors="surrogateescape") as file:
        return file.read().split("\n")[:-1] or stop(f"nothing failed in the last run of {stack}")
