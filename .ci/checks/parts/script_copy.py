"""A small repository with the scripts of this one, in which they are tried: its two programs are scripts, and its `rt` is one too."""
import os
import shutil
import subprocess
import sys

from checks import TOP

SCRIPTS = ('replay', 'explain', 'prove', 'try', 'VERSION', 'HANDLES', 'docs/scenario-language.md', 'docs/explain.md')
KINDS = ('.py', '.txt', '')  # of the files of tools/ that scripts need
NAMES = ('replay', 'explain')
# `rt try` does here what the variables say: it ends with STATUS, and writes on standard error SAID. Its standard output has its words and
# its input, unless EMPTY is there.
RT = '''#!/usr/bin/env bash
case $1 in
    version) echo "rattle-kit-of-a-test logic 0" ;;
    try)
        shift
        [ -n "${EMPTY:-}" ] || { echo "tried: $*"; cat; }
        printf '%b' "${SAID-checked: ended status=0\\\\nrun=ended status=${STATUS:-0} runners=1 proved=no\\\\n}" >&2
        exit "${STATUS:-0}" ;;
    *) echo "rt $1 was called" >&2; exit 99 ;;
esac
'''
PROGRAM = '#!/usr/bin/env bash\necho "proved: $*"\ncat\n'


def write(path: str, text: str, mode: int = 0o644) -> None:
    os.makedirs(os.path.dirname(path), exist_ok=True)
    with open(path, 'w', encoding='utf-8') as file:
        file.write(text)
    os.chmod(path, mode)


def copy_scripts(folder: str) -> None:
    """Copies the scripts, and what they stand on, to the top of another repository."""
    names = [f'tools/{it}' for it in os.listdir(os.path.join(TOP, 'tools')) if os.path.splitext(it)[1] in KINDS]
    for name in (*SCRIPTS, *names):
        path = os.path.join(folder, name)
        if os.path.isfile(os.path.join(TOP, name)):
            os.makedirs(os.path.dirname(path), exist_ok=True)
            shutil.copy2(os.path.join(TOP, name), path)


class Copy:
    """The small repository in a folder."""

    def __init__(self, folder: str) -> None:
        self.folder = folder
        copy_scripts(folder)
        write(self.path('crates.txt'), 'low:\nreplay_command: low\nexplain_command: low\n')
        for crate in ('low', 'replay_command', 'explain_command'):
            write(self.path(f'crates/{crate}/src/lib.rt'), f'// {crate}\n')
        write(self.path('bin/rt'), RT, 0o755)
        os.mkdir(self.path('.git'))

    def path(self, name: str) -> str:
        return os.path.join(self.folder, name)

    def program(self, name: str) -> str:
        return self.path(f'crates/{name}_command/out/{name}_command')

    def run(self, script: str, *words: str, given: bytes | None = b'', path: str | None = None,
            **variables: str) -> subprocess.CompletedProcess[bytes]:
        """Runs a script of the copy, with its `rt` first on the path, or with this path alone."""
        path = f'{self.path("bin")}:{os.environ["PATH"]}' if path is None else path
        by = [sys.executable] if script.endswith('.py') else []
        return subprocess.run([*by, self.path(script), *words], input=given, capture_output=True, timeout=300, check=False,
                              env={**os.environ, 'PATH': path, **variables})

    def build(self) -> None:
        """Puts both programs there, as built of the files as they are."""
        for name in NAMES:
            write(self.program(name), PROGRAM, 0o755)
            total = self.run('tools/build.py', name, 'sum').stdout.decode().strip()
            write(self.path(f'crates/{name}_command/out/built'), total)
            write(self.path(f'crates/{name}_command/out/proved'), 'a sum')
        write(self.path('crates/low/out/rlib/proved'), 'a sum')
