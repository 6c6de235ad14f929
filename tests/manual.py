"""Lists the notes of the program that its manual does not tell.

manual.py MANUAL SOURCE..

A note is a line of standard error that begins with `raidzx: `, as a text of the program's sources has it. An item of the
manual tells it where the words agree: a name stands for whatever is put into the text, and `...` for all that follows.
"""
import re
import sys

NOTE = re.compile(r'"(raidzx: (?:[^"\\]|\\.|\\\n)*)"')
ITEM = re.compile(r'^\.It Li (raidzx: .*)$', re.MULTILINE)


def notes(source):
    """The texts of a source that are notes, each with `*` for what is put into it."""
    for text in NOTE.findall(source):
        yield re.sub(r'\{[^}]*\}', '*', re.sub(r'\\\n\s*', '', text))


def told(item):
    """What an item of the manual stands for."""
    words = re.sub(r' Ns Li (?=[:;,])', '', item)
    words = re.sub(r'Ar [^\s:;,]+( Ns)?', '*', words)
    words = re.sub(r' Li ', ' ', words)
    front = words.endswith('...')
    pattern = '.*'.join(re.escape(part) for part in words.removesuffix('...').rstrip().split('*'))
    return re.compile(pattern + ('.*' if front else '') + r'\Z')


manual = open(sys.argv[1], encoding='utf-8').read()
items = [told(item) for item in ITEM.findall(manual)]
for path in sys.argv[2:]:
    for note in notes(open(path, encoding='utf-8').read()):
        if not any(item.match(note) for item in items):
            print(note)
