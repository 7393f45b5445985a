#!/usr/bin/env python3
"""Writes every recorded file of the repository from the stories and tables of vectors under samples/sources: what programs are given, what they
must print, and the runs that crates/examples proves allowed. What must come out is computed by scripts/model, a plain implementation of documents 01
and 02.
The numbers in include/, docs/LAYOUT.md and docs/RECORDS.md come from model/layout.py; scripts/picture.sh draws docs/reunion.svg
and docs/season.svg.

usage: generate.py            writes the files that are not as they should be, and names them
       generate.py --check    only names them; exit status 1 if there are any
"""
import re
import subprocess
import sys
import tempfile
from pathlib import Path

from model import c_header, decision_vectors, layout_page, proof_files, record_vectors, records_page, register, register_vectors, state_vectors, story

TOP = Path(__file__).resolve().parent.parent
SOURCES = 'samples/sources/'
MOST_REPLAYED = 4   # servers that `replay` takes
SEASON_DRAWN = (1198, 1404)     # events, from the last entries before depot 2 is away to the first ones when it is back


def source(name):
    return (TOP / SOURCES / name).read_text()


def text_of(lines):
    return ('\n'.join(lines) + '\n').encode()


def run_files(name, told):
    return {f'samples/{name}.bin': told.input(), f'samples/{name}.txt': told.output().encode()}


def picture(run, lines, *window):
    """What picture.sh draws of a run, or of the events from one to another. The bytes are the same by every awk."""
    with tempfile.TemporaryDirectory() as folder:
        paths = [Path(folder) / 'run.bin', Path(folder) / 'run.txt']
        for path, data in zip(paths, (run, lines)):
            path.write_bytes(data)
        return subprocess.run(['sh', str(TOP / 'scripts/picture.sh'), *map(str, [*paths, *window])], check=True, capture_output=True).stdout


def worked_file(told):
    """The hexadecimal digits in the proof of document 01's worked example."""
    text = (TOP / 'crates/examples/proofs/Worked.antt').read_text()
    return re.sub(r'hex "[0-9a-f]*"', 'hex "%s"' % told.input().hex(), text).encode()


def vector_files():
    given, expected = [], []
    for name, module in (('records', record_vectors), ('states', state_vectors), ('decisions', decision_vectors)):
        group = module.vectors(source(name + '.vectors'))
        given += ['= ' + name] + group[0]
        expected += ['= ' + name] + group[1]
    pegs = register_vectors.vectors(source('register.vectors'))
    return {'crates/vectors/stdin': text_of(given), 'crates/vectors/stdout': text_of(expected),
            'crates/register_vectors/stdin': text_of(pegs[0]), 'crates/register_vectors/stdout': text_of(pegs[1])}


def files():
    """Path to bytes of every file."""
    stories = {name: story.told(source(name + '.story')) for name in ('worked', 'partition', 'reunion', 'halves', 'corner', 'odd', 'white', 'season', 'figure48')}
    found = {}
    for name, told in stories.items():
        if told.servers <= MOST_REPLAYED:
            found.update(run_files(name, told))
    found['crates/replay/stdin'], found['crates/replay/stdout'] = found['samples/partition.bin'], found['samples/partition.txt']
    found['crates/examples/proofs/Worked.antt'] = worked_file(stories['worked'])
    for name in ('partition', 'reunion', 'halves', 'corner', 'odd', 'white', 'figure48'):
        found['crates/examples/proofs/%sRun.antt' % name.capitalize()] = proof_files.run_file(stories[name], SOURCES + name + '.story').encode()
    found['docs/reunion.svg'] = picture(found['samples/reunion.bin'], found['samples/reunion.txt'])
    found['docs/season.svg'] = picture(found['samples/season.bin'], found['samples/season.txt'], *SEASON_DRAWN)
    found['samples/season-pegs.txt'] = text_of(register.table(story.pegs(stories['season'].left[0])))
    found['include/guzbytor_layout.h'] = c_header.header().encode()
    for name, page in (('include/guzbytor.h', c_header.public), ('docs/LAYOUT.md', layout_page.page), ('docs/RECORDS.md', records_page.page)):
        found[name] = page((TOP / name).read_text()).encode()
    found.update(vector_files())
    return found


def main():
    check = sys.argv[1:] == ['--check']
    if sys.argv[1:] and not check:
        sys.exit(__doc__)
    stale = [(name, data) for name, data in files().items() if not (TOP / name).is_file() or (TOP / name).read_bytes() != data]
    for name, data in stale:
        print(name + (': not what its source says' if check else ': written'))
        if not check:
            (TOP / name).write_bytes(data)
    sys.exit(1 if check and stale else 0)


main()
