"""The scripts of the repository."""
import tempfile

from checks.parts import script_install, script_proofs, script_runs, script_words
from checks.parts.steps import Faults, step


@step(seconds=240)
def check(quick: bool = False) -> Faults:
    """Each script and tool tells its words and the version, and refuses a word that it doesn't know. ./replay and ./explain run unproved
    where the program isn't built of the files as they are, and say so. Nothing is built, checked or removed while a test run holds its
    lock. What tools/install copies is what docs/ says, and is taken away again. The first transcript of a fresh clone is the right one, and
    ./prove proves a small repository; --quick leaves these two out."""
    names = script_words.scripts()
    yield from script_words.faults(names)
    with tempfile.TemporaryDirectory() as folder:
        yield from script_runs.faults(f'{folder}/runs')
        told = yield from script_install.faults(f'{folder}/install')
        if not quick:
            yield from script_proofs.faults(folder)
    return f'{len(names)} scripts with their words; {told}' + ('' if quick else '; a first transcript, and proofs of a small repository')
