"""The run of a story as definitions (PartitionRun.antt and its like in crates/examples/proofs), and the audit of a recorded run (docs/AUDIT.md)."""
import re

from .witness import Witness


def listed(items, width):
    lines = [' ∷ '.join(items[k:k + width]) for k in range(0, len(items), width)]
    return '\n      ∷ '.join(lines + ['[]'])


def numbers(values):
    return '(' + ' ∷ '.join([str(v) for v in values] + ['[])']) if values else '[]'


def row(e):
    if e.data is None:
        return 'down %d' % e.server
    front = 'cut %d %d' % (e.server, e.sent) if e.cut else 'row %d' % e.server
    return '%s "%s" "%s"' % (front, e.data.hex(), e.line)


def summary(story):
    """Where the run reaches what, by the events' numbers."""
    modes, refused, primaries = {}, {}, {}
    for e in story.events():
        number, _, returned, mode, _, _, primary, _ = e.line.split()
        modes.setdefault(mode, number)
        refused.setdefault(returned, []).append(number)
        primaries.setdefault(primary, number)
    del refused['0'], primaries['0']
    return (
        '-- States first reached: ' + ', '.join('%s at %s' % x for x in modes.items()) + '.\n'
        + '-- Primary components first installed: ' + ', '.join('%s at %s' % x for x in primaries.items()) + '.\n'
        + '-- Refused: ' + ('; '.join('%s at %s' % (k, ', '.join(refused[k])) for k in sorted(refused)) or 'none') + '.\n')


def places(story):
    return ' ∷ '.join([str(k) for k in story.strays()] + ['[]'])


def choices(w):
    """The definition of the witness."""
    return f'''unfoldable pub witness : Witness
witness = record {{
  sources =
      {listed(['sent %d %d' % s for s in w.sources], 10)};
  names =
      {listed([str(k) for k in w.names], 20)};
  ords =
      {listed([str(k) for k in w.ords], 20)};
  sending_ords =
      {listed([numbers(k) for k in w.sending_ords], 10)};
}}
'''


def run_file(story, source):
    w = Witness(story)
    if w.circle:
        raise SystemExit('the order has a circle')
    rows = '\n    ∷ '.join([row(e) for e in story.entries] + ['[]'])
    ends = ''.join(', ' + end for end in ('cut', 'down') if re.search(r'\b%s\b' % end, rows))
    size = '%d events at %d servers with the quota %d' % (len(story.events()), story.servers, story.quota)
    return f'''-- A run of {size}, written by scripts/generate.py from {source}.
{summary(story)}use Prim.Native.Nat.{{ℕ}}
use mathlib.Core.List.{{List, [], ◌∷◌}}
use Rattle.replication.specs.Audit.Witness.{{Witness}}
use Rattle.examples.proofs.Records.{{sent}}
use Rattle.examples.proofs.Rows.{{Row, row{ends}}}

abbrev pub servers : ℕ
servers = {story.servers}

abbrev pub quota : ℕ
quota = {story.quota}

unfoldable pub rows : List Row
rows =
    {rows}

-- The places of the events refused 5 or 6.
unfoldable pub strays : List ℕ
strays = {places(story)}

-- What the run without them chose.
{choices(w)}'''


def entry(e):
    if e.data is None:
        return '%s %d' % ('store' if e.stores else 'crash', e.server)
    return 'event %d (hex "%s") %d' % (e.server, e.data.hex(), e.sent)


def recorded_file(story, source):
    """The run of a journal."""
    entries = '\n    ∷ '.join([entry(e) for e in story.entries] + ['[]'])
    return f'''-- {source}: {len(story.entries)} entries at {story.servers} servers with the quota {story.quota}.
use Prim.Native.Nat.{{ℕ}}
use mathlib.Core.List.{{List, [], ◌∷◌}}
use Rattle.replication.specs.Runs.Run.{{event, crash, store, Run}}
use Rattle.replication.specs.Audit.Witness.{{Witness}}
use Rattle.examples.proofs.Records.{{sent}}
use Rattle.examples.proofs.Rows.{{hex}}

abbrev pub servers : ℕ
servers = {story.servers}

abbrev pub quota : ℕ
quota = {story.quota}

unfoldable pub run : Run
run =
    {entries}

-- The places of the events refused 5 or 6.
unfoldable pub strays : List ℕ
strays = {places(story)}

-- What the run without them chose.
{choices(Witness(story))}'''


def audit_file(crate):
    """The run is allowed, and so its green lists and primary components agree."""
    return f'''-- The recorded run is allowed, but for its strays, and all agree.
use mathlib.Core.Path.{{◌≡◌, refl}}
use mathlib.Core.Bool.{{true}}
use Rattle.replication.specs.Runs.Strays.{{AllowedWithStraysUp}}
use Rattle.replication.specs.Runs.Claim.{{Agreement, Demand3}}
use Rattle.replication.specs.Audit.Strays.{{audit_with_strays}}
use Rattle.replication.specs.Audit.Opened.{{opened}}
use Rattle.replication.proofs.Verdicts.Strays.{{strays_sound}}
use Rattle.replication.proofs.Agreement.Greens.Demand.{{demand3}}
use Rattle.examples.proofs.Rows.{{digit, pairs_of, hex}}
use Rattle.{crate}.proofs.Run.{{servers, quota, run, strays, witness}}

passes : audit_with_strays servers quota run strays witness ≡ true
unfolding opened digit pairs_of hex run strays witness
passes = refl

pub allowed : AllowedWithStraysUp servers quota run
allowed = strays_sound servers quota run strays witness passes

pub agrees : Agreement servers quota run
unfolding Demand3
agrees = demand3 servers quota run allowed.allowed
'''


def refused_file(crate, fields):
    """The audit refuses the run, and these fields fail."""
    names = ' ∷ '.join(['"%s"' % f for f in fields] + ['[]'])
    return f'''-- The audit refuses the recorded run: these fields of `Allowed` fail.
use mathlib.Core.Path.{{refl}}
use mathlib.Core.List.{{[], ◌∷◌}}
use Rattle.replication.specs.Runs.Strays.{{without}}
use Rattle.replication.specs.Audit.Strays.{{is_one_of}}
use Rattle.examples.proofs.Rows.{{digit, pairs_of, hex}}
use Rattle.examples.proofs.Shown.{{Refused, opened}}
use Rattle.{crate}.proofs.Run.{{servers, quota, run, strays, witness}}

refused : Refused servers quota (without (is_one_of strays) run) witness ({names})
unfolding opened digit pairs_of hex run strays witness
refused = (refl, refl)
'''


def fields_file(crate, fields):
    """The same with a lemma for each field of `Allowed`, so that a long run does not meet the checker's limit, and what fails has a name. `strays` is
    no field: it says that the machine refuses the strays."""
    lemmas = ''.join(f'''
{name} : passed {k} ≡ true
unfolding opened digit pairs_of hex run places witness rest passed
{name} = refl
''' for k, name in enumerate(fields))
    together = ''.join('both_yes _ _ %s (' % name for name in fields) + 'refl' + ')' * len(fields)
    return f'''-- The recorded run is allowed, but for its strays, and all agree: a lemma for each field of `Allowed`.
use Prim.Native.Nat.{{ℕ}}
use mathlib.Core.Path.{{◌≡◌, refl}}
use mathlib.Core.Bool.{{Bool, true, false}}
use mathlib.Core.List.{{map}}
use lib.ListN.{{get_or}}
use Rattle.base.specs.Lists.{{all}}
use Rattle.base.proofs.TestLaws.{{both_yes}}
use Rattle.replication.specs.Runs.Run.{{Run, beginning}}
use Rattle.replication.specs.Runs.Strays.{{without, AllowedWithStraysUp}}
use Rattle.replication.specs.Runs.Claim.{{Agreement, Demand3}}
use Rattle.replication.specs.Audit.Verdict.{{Test, tests_of, tests, audit}}
use Rattle.replication.specs.Audit.Strays.{{is_one_of, strays_from, audit_with_strays}}
use Rattle.replication.specs.Audit.Opened.{{opened}}
use Rattle.replication.proofs.Verdicts.Strays.{{strays_sound}}
use Rattle.replication.proofs.Agreement.Greens.Demand.{{demand3}}
use Rattle.examples.proofs.Rows.{{digit, pairs_of, hex}}
use Rattle.{crate}.proofs.Run.{{servers as n, quota as q, run, strays as places, witness}}

unfoldable pub rest : Run
rest = without (is_one_of places) run

unfoldable pub passed : ℕ → Bool
passed k = get_or (map (λ (t : Test). t.passed) (tests n q rest witness)) k false

strays : strays_from n (is_one_of places) (beginning n q) run ≡ true
unfolding opened digit pairs_of hex run places
strays = refl
{lemmas}
all_fields : audit n q rest witness ≡ true
unfolding audit tests tests_of all passed
all_fields =
    {together}

passes : audit_with_strays n q run places witness ≡ true
unfolding audit_with_strays rest
passes = both_yes _ _ strays all_fields

pub allowed : AllowedWithStraysUp n q run
allowed = strays_sound n q run places witness passes

pub agrees : Agreement n q run
unfolding Demand3
agrees = demand3 n q run allowed.allowed
'''
