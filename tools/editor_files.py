#!/usr/bin/env python3
"""editor_files.py FOLDER: writes what editors and shells know the scenario language and the programs by into a folder.

vicemint.vim and vicemint-detect.vim are for Vim, vicemint.tmLanguage.json for editors that take TextMate grammars; replay.bash and
explain.bash complete words in bash, _replay and _explain in zsh. The first words of lines and the words of the command line are those
of the tables of docs/scenario-language.md."""
import json
import re
import sys

sys.dont_write_bytecode = True
from man_pages import LANGUAGE, PageFault, of_document, row, write_files  # noqa: E402

EXPLAIN_WORDS = ['--toml']
VIM = r'''" Vim syntax file: scenarios of Vicemint. It is written by tools/editor_files.py.
if exists("b:current_syntax")
  finish
endif
syntax case match
syntax match vicemintBad "\S\+" contained
syntax match vicemintBad "\s\s\+\|\t\|\s$\|\r$"
syntax match vicemintFault "^[^# \t\r]\S*"
syntax match vicemintLine "^\%(@WORDS@\)\ze\%( \|$\)" nextgroup=vicemintPlaces
syntax match vicemintPlaces " .*" contained contains=vicemintNumber,vicemintOctets,vicemintNone,vicemintFraming,vicemintBad
syntax match vicemintOctets "\%( \)\@1<=\%(\x\x\)\+\ze\%( \|$\)" contained
syntax match vicemintNumber "\%( \)\@1<=\%(0\|[1-9]\d*\)\ze\%( \|$\)" contained
syntax match vicemintNone "\%( \)\@1<=-\ze\%( \|$\)" contained
syntax match vicemintFraming "\%( \)\@1<=\%(unframed\|framed\)\ze\%( \|$\)" contained
syntax match vicemintComment "^#.*$"
highlight default link vicemintComment Comment
highlight default link vicemintLine Statement
highlight default link vicemintNumber Number
highlight default link vicemintOctets String
highlight default link vicemintNone Constant
highlight default link vicemintFraming Type
highlight default link vicemintFault Error
highlight default link vicemintBad Error
let b:current_syntax = "vicemint"
'''
VIM_DETECT = 'autocmd BufRead,BufNewFile *.scn setfiletype vicemint\n'
BASH = '''# bash completion for @NAME@. It is written by tools/editor_files.py.
_vicemint_@NAME@() {
    mapfile -t COMPREPLY < <(compgen -W "@WORDS@" -- "${COMP_WORDS[COMP_CWORD]}")
}
complete -F _vicemint_@NAME@ @NAME@
'''
ZSH = '''#compdef @NAME@
# zsh completion for @NAME@. It is written by tools/editor_files.py.
_arguments -S @SPECS@
'''
TELLS = {'--migrate': 'writes the text on standard input in version 2', '--toml': 'takes a document in TOML',
         '--seed': 'makes a scenario of this seed', '--events': 'so many events of it'}


def first_words() -> list[str]:
    """The first word of each line of the language, in the order of its table."""
    words: dict[str, None] = {}
    (_, lines), = of_document(LANGUAGE, 'The lines')
    for line in lines:
        if line.startswith('| `'):
            words.update(dict.fromkeys(re.findall('`([a-z]+)[ `]', row(line)[0])))
    if not words:
        raise PageFault(f'{LANGUAGE} has no table of lines')
    return list(words)


def replay_words() -> list[str]:
    """The words of the command line of `replay`, in the order of their table."""
    words: dict[str, None] = {}
    (_, lines), = of_document(LANGUAGE, 'The words of the command line')
    for line in lines:
        if line.startswith('| `'):
            words.update(dict.fromkeys(re.findall(r'--[a-z]+', row(line)[0])))
    return list(words)


def grammar() -> str:
    """The TextMate grammar."""
    words = '|'.join(first_words())
    places = [
        {'match': r'(?<= )(?:unframed|framed)(?= |$)', 'name': 'storage.type.vicemint'},
        {'match': r'(?<= )(?:0|[1-9][0-9]*)(?= |$)', 'name': 'constant.numeric.vicemint'},
        {'match': r'(?<= )(?:[0-9A-Fa-f]{2})+(?= |$)', 'name': 'string.unquoted.octets.vicemint'},
        {'match': r'(?<= )-(?= |$)', 'name': 'constant.language.vicemint'},
        {'match': r'  +|\t|\r| $|[^ ]+', 'name': 'invalid.illegal.vicemint'},
    ]
    return json.dumps({
        'name': 'Vicemint scenario', 'scopeName': 'source.vicemint', 'fileTypes': ['scn'],
        'patterns': [
            {'match': '^#.*$', 'name': 'comment.line.number-sign.vicemint'},
            {'begin': f'^({words})(?= |$)', 'end': '$', 'beginCaptures': {'1': {'name': 'keyword.control.vicemint'}}, 'patterns': places},
            {'match': '^.+$', 'name': 'invalid.illegal.vicemint'},
        ],
    }, indent=2) + '\n'


def zsh_spec(word: str) -> str:
    takes = ':number:' if word in ('--seed', '--events') else ''
    return f"'{word}[{TELLS[word]}]{takes}'" if word in TELLS else f"'{word}'"


def files() -> dict[str, str]:
    """What is written, by the names of the files."""
    made = {
        'vicemint.vim': VIM.replace('@WORDS@', r'\|'.join(first_words())),
        'vicemint-detect.vim': VIM_DETECT,
        'vicemint.tmLanguage.json': grammar(),
    }
    for name, words in (('replay', replay_words()), ('explain', EXPLAIN_WORDS)):
        made[f'{name}.bash'] = BASH.replace('@NAME@', name).replace('@WORDS@', ' '.join(words))
        made[f'_{name}'] = ZSH.replace('@NAME@', name).replace('@SPECS@', ' '.join(map(zsh_spec, words)))
    return made


def main(words: list[str] | None = None) -> int:
    return write_files('editor_files', 'Writes what editors and shells know the language by.', files, words)


if __name__ == '__main__':
    sys.exit(main())
