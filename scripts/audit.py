#!/usr/bin/env python3
"""Audits a recorded run: whether the group layer under it kept every duty of an allowed run (docs/AUDIT.md).

usage: audit.py JOURNAL..     JOURNAL: a file that the office wrote (examples/c/office, -j)

Writes NAME, a crate that proves the run allowed by one computation, and has it checked. Where that fails or is too long for the checker, NAME_fields
has a lemma for each field of `Allowed`, and those that fail are named; NAME_refused proves that the audit refuses the run with these. They stand in
the folder guzbytor-audit of the temporary folder, for `rt ci` refuses proof files beside the repository's crates. The crates base, format, replication
and examples must be built (rt lib in crates/examples). Exit status 0: all runs are allowed; 1: one is refused; 3: of one the checker could not tell.
"""
import re
import subprocess
import sys
import tempfile
from pathlib import Path

from model import journal, proof_files

TOP = Path(__file__).resolve().parent.parent
AUDITS = Path(tempfile.gettempdir()) / 'guzbytor-audit'
NEEDED = ('base', 'format', 'replication', 'examples')
VERDICT = 'crates/replication/specs/Audit/Verdict.antt'


def write_crate(name, run, module, text):
    folder = AUDITS / name
    for part in ('src', 'proofs'):
        (folder / part).mkdir(parents=True, exist_ok=True)
    (folder / 'src/lib.rt').write_text('// A recorded run. No code.\n')
    (folder / 'proofs/Lib.antt').write_text('pub mod Run\npub mod %s\n' % module)
    (folder / 'proofs/Run.antt').write_text(run)
    (folder / 'proofs' / (module + '.antt')).write_text(text)


def library(crate):
    return TOP / 'crates' / crate / 'out/rlib' / (crate + '.rlib')


def command(name):
    """What checks the crate, in its folder."""
    words = ['rt', 'check', name]
    for crate in NEEDED:
        words += ['--extern', '%s=%s' % (crate, library(crate))]
    return words


def checked(name):
    """Whether it is proved, and which definitions are shown not to be: not those that the checker could not tell of."""
    done = subprocess.run(command(name), cwd=AUDITS / name, capture_output=True, text=True)
    said = done.stdout + done.stderr
    (AUDITS / (name + '.log')).write_text(said)
    errors = re.findall(r'error: `([^`]*)`: (.*)', said)
    return done.returncode == 0 and 'logic=proved' in said, [x for x, why in errors if 'step limit' not in why and 'not admitted' not in why]


def by_fields(name, run):
    """The exit status, the verdict by the fields one by one, and the crate that shows it."""
    fields = re.findall(r'test "([^"]*)"', (TOP / VERDICT).read_text())
    write_crate(name + '_fields', run, 'Fields', proof_files.fields_file(name + '_fields', fields))
    proved, errors = checked(name + '_fields')
    failing = [x for x in errors if x in fields + ['strays']]
    if proved or not failing:
        return (0, 'allowed', name + '_fields') if proved else (3, 'NO VERDICT, see %s/%s_fields.log' % (AUDITS, name), name + '_fields')
    write_crate(name + '_refused', run, 'Refused', proof_files.refused_file(name + '_refused', failing))
    return 1, 'REFUSED, failing: ' + ', '.join(failing), name + ('_refused' if checked(name + '_refused')[0] else '_fields')


def audited(path):
    name = 'run_' + re.sub(r'[^a-z0-9_]', '_', path.stem.lower())
    story = journal.told(path.read_text())
    run = proof_files.recorded_file(story, path.name)
    write_crate(name, run, 'Audit', proof_files.audit_file(name))
    status, verdict, shown = (0, 'allowed', name) if checked(name)[0] else by_fields(name, run)
    print('%s, %d entries, %d of them strays: %s' % (path.name, len(story.entries), len(story.strays()), verdict))
    print('  cd %s && %s' % (AUDITS / shown, ' '.join(command(shown))), flush=True)
    return status


def main():
    if not sys.argv[1:] or sys.argv[1].startswith('-'):
        sys.exit(__doc__)
    missing = [crate for crate in NEEDED if not library(crate).is_dir()]
    if missing:
        sys.exit('not built: %s. First: (cd crates/examples && rt lib)' % ', '.join(missing))
    sys.exit(max([audited(Path(name)) for name in sys.argv[1:]]))


main()
