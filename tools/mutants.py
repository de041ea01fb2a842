#!/usr/bin/env python3
"""Do the theorems bite? Changes a definition and the code that meets it together, and shows that `claims` or `runs` refuses the pair.

A contract is met by a definition and code that are wrong together; only a theorem refuses them. Each mutant below is such a pair, and is
tried in two copies of the repository:

  code    everything as it is. The changed function must be proved to meet its changed definition, so the pair is consistent. Laws of its
          crate that refuse the definition are named.
  facts   definitions and types without code and laws, which would refuse it first; `claims` keeps its computed witness (what each theorem
          says of one run), and `runs` its computed cases. One of the facts that the mutant aims at must be refused.

Where the changed code has another shape, its proof is changed with it. A mutant without a function changes a definition alone. One that aims at
a law is tried in the first copy alone: the law must refuse it.

Then the edits of tools/mutants/CRATE/*.edit, in the format of the gate's own (crates/CRATE/must-fail): a definition, a contract or a statement that
is wrong, or one more wrong program for a contract that has its two in the gate. Each is tried in the first copy by `rt must-fail`, and its crate must
be refused because a fact no longer holds, not because a proof no longer fits the code's shape.

    tools/mutants.py [WORD..]     all of them, or those in whose line one of the words stands
    tools/mutants.py --fit        tries none; says which texts do not stand in the file that they change just once

The copies are made anew in the folder for temporary files (TMPDIR): `rt ci` refuses a crate's files at any other place in the checkout.
"""
import os
import re
import shutil
import subprocess
import sys
import tempfile
import time
from dataclasses import dataclass
from pathlib import Path

ROOT = Path(__file__).resolve().parent.parent
EDITS = ROOT / "tools" / "mutants"
COPIES = Path(tempfile.gettempdir()) / f"mutants-{os.getuid()}"
CODE, FACTS = COPIES / "code", COPIES / "facts"


@dataclass
class Mutant:
    aim: str  # the theorem, case or law that it is to break
    name: str
    facts: tuple  # of `claims`' witness or `runs`' cases, or laws of the function's crate, one of which must be refused
    function: str  # whose code follows the definition; '' for none
    edits: tuple  # (file under crates/, old, new)..


def crate_lines():
    return [line for line in (ROOT / "crates.txt").read_text().split("\n") if ":" in line and not line.startswith("#")]


def types_alone(source):
    """A Rattle file without its functions and traits, their contracts, tactics and what only those use. A ghost field keeps what it cites."""
    kept, skipping = [], False
    dropped = ("#[tactic(",) if re.search(r"(?m)^    (pub )?ghost \w+: ", source) else ("ghost use", "#[tactic(")
    for line in source.split("\n"):
        if skipping:
            skipping = not line.startswith("}")
            continue
        if re.match(r"(pub(\(crate\))? )?(fn|impl|trait)\b", line):
            skipping = not re.match(r".*\{.*\}$", line)
            continue
        if not line.startswith(dropped):
            # a Default that is derived may stand on one by hand
            kept.append(re.sub(r"^(#\[derive\(.*?)(?:Default, |, Default\b)", r"\1", line))
    text = "\n".join(kept)
    imports = re.compile(r"(?m)^use ([\w:]+::)(\w+|\{[^}]*\});\n")
    used = set(re.findall(r"\w+", re.sub(r"//.*", "", imports.sub("", text))))

    def still_used(m):
        names = [name for name in re.findall(r"\w+", m.group(2)) if name in used]
        return f"use {m.group(1)}{{{', '.join(names)}}};\n" if len(names) > 1 else f"use {m.group(1)}{names[0]};\n" if names else ""

    return imports.sub(still_used, text)


def make_code():
    """The whole repository. What other copies on this machine proved of it, `rt check` takes over."""
    shutil.copytree(ROOT / "crates", CODE / "crates", ignore=shutil.ignore_patterns("out", "must-fail"))
    shutil.copy(ROOT / "crates.txt", CODE)


def make_facts():
    """Types and definitions of `claims`, `runs` and the crates below them; of proofs the computed ones alone."""
    deps = {name: line.split() for name, line in (line.split(":") for line in crate_lines())}
    kept = {"claims", "runs", *deps["claims"], *deps["runs"]}
    for name in kept:
        for file in (ROOT / "crates" / name).rglob("*"):
            inner = file.relative_to(ROOT / "crates" / name)
            keep = inner.parts[0] in ("src", "specs") or (name == "runs" and inner.parts[0] == "proofs")
            if file.is_file() and keep:
                target = FACTS / "crates" / name / inner
                target.parent.mkdir(parents=True, exist_ok=True)
                target.write_text(types_alone(file.read_text()) if file.suffix == ".rt" else file.read_text())
    (FACTS / "crates.txt").write_text("\n".join(line for line in crate_lines() if line.split(":")[0] in kept) + "\n")


def set_witness(there):
    """With it `claims` refuses what breaks a theorem; without it `runs` is reached."""
    proofs = FACTS / "crates" / "claims" / "proofs"
    shutil.rmtree(proofs, ignore_errors=True)
    if there:
        proofs.mkdir()
        shutil.copy(ROOT / "crates" / "claims" / "proofs" / "Witness.antt", proofs)
        (proofs / "Lib.antt").write_text("pub mod Witness\n")


def check(copy, crate):
    done = subprocess.run(["rt", "check"], cwd=copy / "crates" / crate, stdout=subprocess.PIPE, stderr=subprocess.STDOUT, text=True, errors="replace")
    return done.returncode == 0, done.stdout


def refused_facts(crate, output):
    """(crate, fact) for each field of the witness or the cases at which the prover stopped."""
    found = []
    for file, line in re.findall(r"(?m)^\./proofs/(\w+)\.antt:(\d+):\d+: error", output):
        text = (FACTS / "crates" / crate / "proofs" / f"{file}.antt").read_text().split("\n")[int(line) - 1]
        m = re.match(r"\s*([\w-]+) = ", text)
        if m and (crate, m.group(1)) not in found:
            found.append((crate, m.group(1)))
    return found


def refused_laws(output):
    """Laws of a crate, not function proofs, that the prover found false or whose proof no longer fits."""
    laws = re.findall(r"(?m)^\./proofs/\w+\.antt:\d+:\d+: error: `([^`]+)`(?!: `[^`]+` was not admitted)", output)
    return list(dict.fromkeys(laws))


def edit(copy, edits):
    """Makes the edits; gives what undoes them."""
    before = {}
    for file, old, new in edits:
        path = copy / "crates" / file
        text = path.read_text()
        before.setdefault(path, text)
        if text.count(old) != 1:
            raise SystemExit(f"{text.count(old)} places for an edit in {file}: {old}")
        path.write_text(text.replace(old, new))
    return before


def undo(before):
    for path, text in before.items():
        path.write_text(text)


def follows(mutant):
    """Whether the changed function is proved, and which laws of its crate refuse the definition."""
    crate = mutant.function.split("::")[0]
    before = edit(CODE, mutant.edits)
    proved, output = check(CODE, crate)
    undo(before)
    return proved or f"fn {mutant.function}: proved" in output, refused_laws(output)


def breaks(mutant):
    """The facts that are refused."""
    definitions = [e for e in mutant.edits if "/specs/" in e[0]]
    crate = "runs" if mutant.aim.startswith("case") else "claims"
    set_witness(crate == "claims")
    before = edit(FACTS, definitions)
    proved, output = check(FACTS, crate)
    undo(before)
    wrong = re.findall(r"(?m)^\S*\bspecs/\S+: error.*", output)
    if wrong:
        raise SystemExit(f"{mutant.name}: no definition: {wrong[0]}")
    return [] if proved else refused_facts(crate, output)


def tried(mutant):
    """One line, and whether the mutant is refused as it should be."""
    began = time.time()
    held, code = True, "the definition alone"
    if mutant.function:
        held, laws = follows(mutant)
        code = f"{mutant.function} {'meets it' if held else 'DOES NOT MEET IT'}"
        code += f"; laws that refuse it: {', '.join(laws)}" if laws else "; no law of its crate refuses it"
        if mutant.aim.startswith("law"):
            return f"{mutant.aim}: {mutant.name}\n    {code} ({time.time() - began:.0f} s)", held and any(law in mutant.facts for law in laws)
    facts = breaks(mutant)
    hit = any(fact in mutant.facts for _, fact in facts)
    named = ", ".join(f"{crate} {fact}" for crate, fact in facts) or "NOTHING"
    return f"{mutant.aim}: {mutant.name}\n    refused by {named}\n    {code} ({time.time() - began:.0f} s)", held and hit


@dataclass
class Edit:
    crate: str
    name: str
    why: str  # its first line
    edits: tuple  # (file under crates/, old, new)..


def read_edit(path):
    """An old text and its new one belong to the file that was named last."""
    crate, lines, file, old, edits = path.parent.name, path.read_text().split("\n"), "", "", []
    for line in lines:
        key, _, text = line.partition(": ")
        if key == "file":
            file = text
        elif key == "old":
            old = text
        elif key == "new":
            edits.append((f"{crate}/{file}", old, text))
    return Edit(crate, path.stem, lines[0].lstrip("# "), tuple(edits))


def tried_edits(crate, edits):
    """For each edit of a crate one line, and whether it is refused as it should be."""
    began = time.time()
    folder = CODE / "crates" / crate / "must-fail"
    folder.mkdir()
    for each in edits:
        shutil.copy(EDITS / crate / f"{each.name}.edit", folder)
    check(CODE, crate)
    done = subprocess.run(["rt", "must-fail", crate], cwd=CODE, stdout=subprocess.PIPE, stderr=subprocess.STDOUT, text=True, errors="replace")
    shutil.rmtree(folder)
    said = dict(re.findall(r"(?m)^rt: must-fail \w+/([\w.-]+)\.edit: (.*)", done.stdout))
    for each in edits:
        what = said.get(each.name, "NOT TRIED")
        refused = what.startswith("refused, as it must be") and "only because" not in what and "only by a limit" not in what
        yield f"{crate}/{each.name}: {each.why}\n    {what[:200]}", refused
    print(f"    ({time.time() - began:.0f} s for {len(edits)} edits of {crate})", flush=True)


def misfits():
    """The texts that do not stand just once in their file, after the edits before them."""
    for label, edits in [(m.name, m.edits) for m in MUTANTS] + [(f"{e.crate}/{e.name}", e.edits) for e in map(read_edit, sorted(EDITS.glob("*/*.edit")))]:
        texts = {}
        for file, old, new in edits:
            text = texts.get(file) or (ROOT / "crates" / file).read_text()
            if text.count(old) != 1:
                yield f"{label}: {text.count(old)} places in {file} for: {old}"
            texts[file] = text.replace(old, new)


def main(words):
    if words == ["--fit"]:
        found = list(misfits())
        print("\n".join(found) or "each text stands in its file just once")
        sys.exit(bool(found))

    def wanted(line):
        return not words or any(word in line for word in words)

    mutants = [m for m in MUTANTS if wanted(f"{m.aim}: {m.name}")]
    edits = [e for e in map(read_edit, sorted(EDITS.glob("*/*.edit"))) if wanted(f"{e.crate}/{e.name}: {e.why}")]
    shutil.rmtree(COPIES, ignore_errors=True)
    make_code()
    if mutants:
        make_facts()
        for there, crate in ((True, "claims"), (False, "runs")):
            set_witness(there)
            proved, output = check(FACTS, crate)
            if not proved:
                raise SystemExit(f"the definitions as they are: {crate} is not proved\n{output[-3000:]}")
        print("the definitions as they are: every fact holds", flush=True)
    wrong = 0

    def told(line, refused):
        print(line + ("" if refused else "\n    NOT AS IT SHOULD BE"), flush=True)
        return not refused

    for each in mutants:
        wrong += told(*tried(each))
    for crate in dict.fromkeys(e.crate for e in edits):
        for line, refused in tried_edits(crate, [e for e in edits if e.crate == crate]):
            wrong += told(line, refused)
    shutil.rmtree(COPIES, ignore_errors=True)
    print(f"{len(mutants)} mutants and {len(edits)} edits, {wrong} not refused as they should be")
    sys.exit(wrong > 0)


MUTANTS = [
    Mutant("0 never stuck", "a long timeout that starts the timer at 901", ("never_stuck",), "machine::receive::timeout_time", (
        ("machine/specs/Time.antt", "timeout_time short = ticks (cond short short_timeout_time long_timeout_time)", "timeout_time short = ticks (cond short short_timeout_time 901)"),
        ("machine/src/receive.rt", "        LONG_TIMEOUT_TIME\n", "        Ticks(901)\n"))),
    Mutant("0 refusals are silent", "a refusal that writes the table", ("refused-line", "refused-fetch"), "", (
        ("control/specs/After.antt", "after c t = unless (answer c t) t (changed_by c t)", "after c t = unless (answer c t) (changed_by c t) (changed_by c t)"),)),
    Mutant("0 refusals are silent", "a refusal that clears the buffer", ("refused-line", "refused-fetch"), "", (
        ("control/specs/After.antt", "outgoing c t = unless (answer c t) (buffer_of c) (written_by c t)", "outgoing c t = unless (answer c t) [] (written_by c t)"),)),
    Mutant("1 the rule afresh", "bystanders forgotten", ("rule-afresh",), "trunk::select::must_move", (
        ("trunk/specs/Settled.antt", "|| not (eqb p.aggregator k)", "|| not (eqb p.aggregator p.aggregator)"),
        ("trunk/src/select.rt", "(table.aggregator(i) != k)", "(table.aggregator(i) != table.aggregator(i))"))),
    Mutant("2 distributing is earned", "DISTRIBUTING without a partner that collects", ("distributing-earned",), "machine::mux::next", (
        ("machine/specs/Mux.antt", "mux_next Distributing Selected ready true false = Some Collecting", "mux_next Distributing Selected ready true false = None"),
        ("machine/src/mux.rt", "(Mux::Distributing, Selection::Selected, _, true, false) => Some(Mux::Collecting)",
         "(Mux::Distributing, Selection::Selected, _, true, false) => None"))),
    Mutant("2 distributing is earned", "a port without a link whose partner is in sync", ("distributing-earned",), "port::record::Port::port_disabled", (
        ("port/specs/Receive.antt", "port_disabled p = with_receive (with_current (with_partner_state p (with_synchronization p.partner.state false)) (ticks 0)) PortDisabled",
         "port_disabled p = with_receive (with_current (with_partner_state p (with_synchronization p.partner.state true)) (ticks 0)) PortDisabled"),
        ("port/src/receive.rt", "        self.partner.state.synchronization = false;\n        self.in_state(Receive::PortDisabled, Ticks(0))",
         "        self.partner.state.synchronization = true;\n        self.in_state(Receive::PortDisabled, Ticks(0))"))),
    Mutant("2 the actor's bits", "DISTRIBUTING that clears its bit", ("bits_true",), "machine::states::Mux::bits", (
        ("machine/specs/Mux.antt", "mux_bits Distributing s = with_distributing s true", "mux_bits Distributing s = with_distributing s false"),
        ("machine/src/entry.rt", "                distributing: true,", "                distributing: false,"))),
    Mutant("2 one group", "own keys not compared", ("two-groups",), "trunk::select::same_group", (
        ("trunk/specs/Selection.antt", "same_keys c d = eqb c.key d.key &&", "same_keys c d = eqb c.key c.key &&"),
        ("trunk/src/select.rt", "(c.key == d.key)", "(c.key == c.key)"))),
    Mutant("3 locality", "SLOW_PERIODIC that never rests, so that each call moves every port's pace", ("locality-received", "locality-fallen"),
           "machine::periodic::next", (
        ("machine/specs/Periodic.antt", "periodic_next SlowPeriodic false false false = None", "periodic_next SlowPeriodic false false false = Some NoPeriodic"),
        ("machine/src/periodic.rt", "(Periodic::SlowPeriodic, false, false, false) => None",
         "(Periodic::SlowPeriodic, false, false, false) => Some(Periodic::NoPeriodic)"))),
    Mutant("3 locality", "a port displaced though its partner has not moved", ("locality-received",), "", (
        ("trunk/specs/Displaced.antt", "displaced_if r a i p = cond (not (eqb i r) && is_displaced a p) (moved p) p",
         "displaced_if r a i p = cond (not (eqb i r) && not (is_displaced a p)) (moved p) p"),)),
    Mutant("3 locality", "every call ages every port", ("locality-received", "locality-fallen"), "", (
        ("work/specs/Work.antt", "worked h ps = settled h (map periodic_run ps)",
         "worked h ps = settled h (map (λ (p : Port). periodic_run (Rattle.port.specs.Transmit.ticked p)) ps)"),)),
    Mutant("3 a group's own timers", "a Ready that another group's timer holds back", ("distributing",), "", (
        ("trunk/specs/Ready.antt", "waits_for k p = eqb p.aggregator k &&", "waits_for k p = eqb p.aggregator p.aggregator &&"),)),
    Mutant("4 at rest", "PERIODIC_TX that leads to NO_PERIODIC", ("at_rest",), "machine::periodic::next", (
        ("machine/specs/Periodic.antt", "periodic_next PeriodicTx false out true = Some FastPeriodic", "periodic_next PeriodicTx false out true = Some NoPeriodic"),
        ("machine/src/periodic.rt", "(Periodic::PeriodicTx, false, _, true) => Some(Periodic::FastPeriodic)",
         "(Periodic::PeriodicTx, false, _, true) => Some(Periodic::NoPeriodic)"))),
    Mutant("4 at rest", "one step of the mux", ("at_rest",), "", (
        ("port/specs/Mux.antt", "mux_run p = mux_step false (mux_step false p)", "mux_run p = mux_step false p"),)),
    Mutant("5 read-back", "the two blocks exchanged", ("read_back",), "work::send", (
        ("work/specs/Work.antt", "lacpdu_of s i = lacpdu (port_of s i).own.address (actor_block s.common.system (i + 1) (port_of s i)) (port_of s i).partner s.common.delay",
         "lacpdu_of s i = lacpdu (port_of s i).own.address (port_of s i).partner (actor_block s.common.system (i + 1) (port_of s i)) s.common.delay"),
        ("work/src/lib.rt", "frame::wire::write_lacpdu(out, p.own.address, actor, p.partner, ours.delay);", "frame::wire::write_lacpdu(out, p.own.address, p.partner, actor, ours.delay);"))),
    Mutant("6 the live partner", "EXPIRED that records the default block", ("live_though_silent",), "port::record::Port::expire", (
        ("port/specs/Receive.antt", "expired p =\n    with_receive (expired_bit (with_current (with_partner_state p (with_timeout (with_synchronization p.partner.state false) true)) (ticks short_timeout_time)) true) Expired",
         "expired p =\n    let d = record_default p in\n    with_receive (expired_bit (with_current (with_partner_state d (with_timeout (with_synchronization d.partner.state false) true)) (ticks short_timeout_time)) true) Expired"),
        ("port/src/receive.rt", "fn expire(mut self)", "fn expire(self)"),
        ("port/src/receive.rt", "        self.partner.state.synchronization = false;\n        self.partner.state.timeout = true;\n        self.actor.expired = true;\n        self.in_state(Receive::Expired,",
         "        let mut p = self.record_default();\n        p.partner.state.synchronization = false;\n        p.partner.state.timeout = true;\n        p.actor.expired = true;\n        p.in_state(Receive::Expired,"),
        ("port/proofs/record/Port/expire/Answers.antt", "{expired}", "{expired, record_default}"),
        ("port/proofs/record/Port/expire/Answers.antt", "unfolding expired\nreturns c = simp c.in_state.ensures", "unfolding expired record_default\nreturns c = simp (c.in_state.ensures, c.record_default-p.ensures)"))),
    Mutant("6 the live partner", "EXPIRED that clears the partner's Aggregation", ("live_though_silent",), "port::record::Port::expire", (
        ("port/specs/Receive.antt", "(with_timeout (with_synchronization p.partner.state false) true)) (ticks short_timeout_time)) true) Expired",
         "(with_aggregation (with_synchronization p.partner.state false) false)) (ticks short_timeout_time)) true) Expired"),
        ("port/src/receive.rt", "        self.partner.state.timeout = true;\n", "        self.partner.state.aggregation = false;\n"))),
    Mutant("6 the live partner", "a link that falls clears the partner's Collecting", ("live_though_fallen",), "port::record::Port::port_disabled", (
        ("port/specs/Receive.antt", "port_disabled p = with_receive (with_current (with_partner_state p (with_synchronization p.partner.state false)) (ticks 0)) PortDisabled",
         "port_disabled p = with_receive (with_current (with_partner_state p (Rattle.machine.specs.Bits.with_collecting p.partner.state false)) (ticks 0)) PortDisabled"),
        ("port/src/receive.rt", "        self.partner.state.synchronization = false;\n        self.in_state(Receive::PortDisabled, Ticks(0))",
         "        self.partner.state.collecting = false;\n        self.in_state(Receive::PortDisabled, Ticks(0))"))),
    Mutant("6 the live partner", "settings that put the default block in force", ("live_though_set",), "", (
        ("settings/specs/Settings.antt", "configured s p = with_ntt (with_actor (with_own (regrouped s p) (own_of s)) (own_bits s p.actor)) true",
         "configured s p = with_ntt (with_actor (Rattle.port.specs.Record.with_partner (with_own (regrouped s p) (own_of s)) s.default) (own_bits s p.actor)) true"),)),
    Mutant("6 the live partner", "a line call that takes the new duplex first, and then the link", ("live_though_dropped",), "", (
        ("port/specs/Receive.antt", "lined l p = receive_run (with_line (receive_run (with_line p (down p.line))) l)",
         "lined l p = receive_run (with_line (receive_run (with_line (receive_run (with_line p (down p.line))) (record { up = p.line.up; full = l.full }))) l)"),)),
    Mutant("7 reports", "COLLECTING counted as distributing", ("narrowed-true",), "report::aggregator_of", (
        ("report/specs/Sets.antt", "distributes_in k p = holds k p && distributes p.phase.mux",
         "distributes_in k p = holds k p && Rattle.machine.specs.Mux.collects p.phase.mux"),
        ("report/src/lib.rt", "holds(table, i, k) & table.phase(i).mux.distributes()", "holds(table, i, k) & table.phase(i).mux.collects()"))),
    Mutant("7 reports", "the count of the attached ports", ("narrowed-true",), "report::aggregator_of", (
        ("report/specs/Sets.antt", "count = ones (set_of (distributes_in k) ps);", "count = ones (set_of (attached_to k) ps);"),
        ("report/src/lib.rt", "count: u32::count_ones(distributing),", "count: u32::count_ones(attached),"))),
    Mutant("8 three sends", "a send forgotten once ten ticks have come after it", ("fourth_too_soon",), "machine::ages::aged", (
        ("machine/specs/Ages.antt", "forgotten_age = 11", "forgotten_age = 10"),
        ("machine/src/ages.rt", "FORGOTTEN_AGE: u8 = 11;", "FORGOTTEN_AGE: u8 = 10;"))),
    Mutant("8 three sends", "a second send that forgets the first", ("fourth-at_once", "ages-spread"), "machine::states::Ages::with_send", (
        ("machine/specs/Ages.antt", "(ages (Some 0) g.first g.third) (ages (Some 0) g.first g.second))", "(ages (Some 0) no_send g.third) (ages (Some 0) g.first g.second))"),
        ("machine/src/ages.rt", "                second: self.first,\n                ..self", "                second: None,\n                ..self"))),
    Mutant("9 the line call", "NTT kept at half duplex", ("half_silent",), "machine::states::Line::is_silent", (
        ("machine/specs/States.antt", "silent_on l passive = not l.full || (l.up && passive)", "silent_on l passive = l.full && (l.up && passive)"),
        ("machine/src/states.rt", "!self.full | (self.up & passive)", "self.full & (self.up & passive)"))),
    Mutant("10 distributing is given", "a mux that never distributes", ("distributing", "carrying-trunk"), "machine::mux::next", (
        ("machine/specs/Mux.antt", "mux_next Collecting Selected ready true true = Some Distributing", "mux_next Collecting Selected ready true true = None"),
        ("machine/src/mux.rt", "(Mux::Collecting, Selection::Selected, _, true, true) => Some(Mux::Distributing)",
         "(Mux::Collecting, Selection::Selected, _, true, true) => None"))),
    Mutant("11 waiting for someone", "Ready while a timer runs, and no longer when none does", ("waiting",), "", (
        ("trunk/specs/Ready.antt", "ready k ps = has_waiting k ps && not (held_back k ps)", "ready k ps = has_waiting k ps && held_back k ps"),)),
    Mutant("13 one aggregator", "a port that goes over without being detached", ("thinner",), "", (
        ("port/specs/Mux.antt", "detached p = mux_step false (mux_step false (mux_step false (with_selected p Unselected)))",
         "detached p = mux_step false (mux_step false (mux_step false (with_selected p Selected)))"),)),
    Mutant("7 reports", "what is due without the limit of three sends", ("due-barred", "due_as_fetched"), "", (
        ("port/specs/Transmit.antt", "goes (Err Barred) = false", "goes (Err Barred) = true"),)),
    Mutant("14 a moved partner is forgotten", "a displaced port that is left as it is", ("forgotten",), "", (
        ("trunk/specs/Displaced.antt", "cond (not (eqb i r) && is_displaced a p) (moved p) p", "cond (not (eqb i r) && is_displaced a p) p p"),)),
    Mutant("15 thinner for a reason", "any other settings make a port UNSELECTED", ("still-carries",), "settings::Settings::regroup", (
        ("settings/specs/Settings.antt", "regrouped s p = cond (same_grouping s p) p (unselected p)", "regrouped s p = cond (same_settings s p) p (unselected p)"),
        ("settings/src/lib.rt", "        if self.has_grouping(p) {", "        if self.is_held(p) {"))),
    Mutant("16 the partner spoke", "recordDefault that says it recorded an LACPDU", ("unspoken",), "port::receive::is_default", (
        ("port/specs/Receive.antt", "is_default Default = true", "is_default Default = false"),
        ("port/src/receive.rt", "    source == Source::Default\n", "    let _ = source;\n    false\n"))),
    Mutant("law update_NTT", "Timeout not compared", ("view-true",), "machine::compare::same_view", (
        ("machine/specs/Compare.antt", "&& (alike x.state.timeout y.state.timeout && alike x.state.synchronization y.state.synchronization))",
         "&& (alike x.state.timeout x.state.timeout && alike x.state.synchronization y.state.synchronization))"),
        ("machine/src/compare.rt", "&& x.state.timeout == y.state.timeout", "&& x.state.timeout == x.state.timeout"))),
    Mutant("law Synchronization", "a sender that does not aggregate is never in sync", ("in_sync-is",), "machine::compare::in_sync", (
        ("machine/specs/Compare.antt", "(same_party b us || not a.state.aggregation)", "(same_party b us || a.state.aggregation)"),
        ("machine/src/compare.rt", "(same_party(b, us) | !a.state.aggregation)", "(same_party(b, us) | a.state.aggregation)"),
        )),
    Mutant("law NTT cleared", "a port that is down, with both ends passive, is silent too", ("silent-true",), "machine::states::Line::is_silent", (
        ("machine/specs/States.antt", "silent_on l passive = not l.full || (l.up && passive)", "silent_on l passive = not l.full || (passive && passive)"),
        ("machine/src/states.rt", "!self.full | (self.up & passive)", "!self.full | (passive & passive)"))),
    Mutant("law the order of periodicNext", "in FAST_PERIODIC a timer that ran out is not looked at", ("out-second",), "machine::periodic::next", (
        ("machine/specs/Periodic.antt", "periodic_next FastPeriodic false true short = Some PeriodicTx", "periodic_next FastPeriodic false true short = None"),
        ("machine/src/periodic.rt", "(Periodic::FastPeriodic, false, true, _) => Some(Periodic::PeriodicTx)",
         "(Periodic::FastPeriodic, false, true, _) => None"))),
    Mutant("law what a frame is", "the Slow Protocols of type 88-08", ("slow-true", "true-slow"), "frame::class::is_unknown", (
        ("frame/specs/Class.antt", "slow_type = 0x8809", "slow_type = 0x8808"),
        ("frame/src/class.rt", "SLOW_TYPE: u16 = 0x8809", "SLOW_TYPE: u16 = 0x8808"))),
    Mutant("law what is not looked at", "the version of an LACPDU tested in the place of its third length", ("alike_class",), "frame::class::has_wrong_length", (
        ("frame/specs/Class.antt", "eqb (octet l 57) 16", "eqb (octet l 15) 1"),
        ("frame/src/class.rt", "[s[17], s[37], s[57]] != [20, 20, 16]", "[s[17], s[37], s[15]] != [20, 20, 1]"))),
    Mutant("law what stands where", "an address with its last two octets first", ("block_rows", "lacpdu_rows"), "frame::block::AddressInOctets::write", (
        ("frame/specs/Block.antt", "record { high = number_at l i; middle = number_at l (i + 2); low = number_at l (i + 4) }",
         "record { low = number_at l i; middle = number_at l (i + 2); high = number_at l (i + 4) }"),
        ("frame/specs/Block.antt", "number_octets a.high ++ (number_octets a.middle ++ number_octets a.low)",
         "number_octets a.low ++ (number_octets a.middle ++ number_octets a.high)"),
        ("frame/src/block.rt", "            high: octets::number(s, at),", "            low: octets::number(s, at),"),
        ("frame/src/block.rt", "            low: octets::number(s, at + 4),", "            high: octets::number(s, at + 4),"),
        ("frame/src/block.rt", "put_number(out, at, self.high);", "put_number(out, at, self.low);"),
        ("frame/src/block.rt", "put_number(out, at + 4, self.low);", "put_number(out, at + 4, self.high);"),
        ("frame/proofs/block/AddressInOctets/write/Answers.antt", "(number_octets a.high ∷ number_octets a.middle ∷ number_octets a.low ∷ [])",
         "(number_octets a.low ∷ number_octets a.middle ∷ number_octets a.high ∷ [])"))),
    Mutant("law what stands where", "an LACPDU with a 1 in its reserved octet 53", ("lacpdu_rows",), "frame::wire::write_lacpdu", (
        ("frame/specs/Wire.antt", "(block_octets partner ++ (zeros 3\n", "(block_octets partner ++ ((1 ∷ zeros 2)\n"),
        ("frame/src/wire.rt", "octets::put(out, 53, &[0, 0, 0, 3, 16]);", "octets::put(out, 53, &[1, 0, 0, 3, 16]);"),
        ("frame/proofs/wire/write_lacpdu/Answers.antt", "put_at 53 (0 ∷ 0 ∷ 0 ∷ 3", "put_at 53 (1 ∷ 0 ∷ 0 ∷ 3"),
        ("frame/proofs/wire/write_lacpdu/Answers.antt", "pb ∷ (0 ∷ 0 ∷ 0 ∷ 3", "pb ∷ (1 ∷ 0 ∷ 0 ∷ 3"))),
    Mutant("case 07, 3F, 3D", "Aggregation and Defaulted exchanged", ("active-short", "in_trunk", "in_trunk-long"), "frame::state::U8FromPortState::from", (
        ("frame/specs/State.antt", "weighed s.aggregation 4", "weighed s.defaulted 4"),
        ("frame/specs/State.antt", "weighed s.defaulted 64", "weighed s.aggregation 64"),
        ("frame/specs/State.antt", "aggregation = bit o 4;", "aggregation = bit o 64;"),
        ("frame/specs/State.antt", "defaulted = bit o 64;", "defaulted = bit o 4;"),
        ("frame/src/state.rt", "weigh(state.aggregation, 4)", "weigh(state.defaulted, 4)"),
        ("frame/src/state.rt", "weigh(state.defaulted, 64)", "weigh(state.aggregation, 64)"),
        ("frame/src/state.rt", "aggregation: o / 4 % 2", "aggregation: o / 64 % 2"),
        ("frame/src/state.rt", "defaulted: o / 64 % 2", "defaulted: o / 4 % 2"))),
    Mutant("case 45, C5", "recordDefault that clears Defaulted", ("after-start", "after-link-up"), "port::receive::is_default", (
        ("port/specs/Receive.antt", "is_default Default = true", "is_default Default = false"),
        ("port/src/receive.rt", "    source == Source::Default\n", "    let _ = source;\n    false\n"))),
    Mutant("case alone; case 4 and 6", "a wait of 19 ticks", ("alone_19", "joined_24"), "machine::states::Mux::wait_time", (
        ("machine/specs/Time.antt", "aggregate_wait_time = 20", "aggregate_wait_time = 19"),
        ("machine/src/entry.rt", "AGGREGATE_WAIT_TIME: Ticks = Ticks(20)", "AGGREGATE_WAIT_TIME: Ticks = Ticks(19)"))),
    Mutant("case 4 and 6", "each port attached on its own timer", ("joined_24",), "", (
        ("trunk/specs/Settled.antt", "attached_all ps = map (attaching ps) ps", "attached_all ps = map (λ p. attached_if (eqb p.timers.wait.0 0) p) ps"),)),
    Mutant("case 3, 5 and 2", "a partner that aggregates taken for individual", ("sharing", "learned"), "trunk::select::is_individual", (
        ("trunk/specs/Selection.antt", "not c.partner_aggregation", "c.partner_aggregation"),
        ("trunk/src/select.rt", "(!c.willing | (c.system == ours.system))", "(c.willing | (c.system == ours.system))"))),
    Mutant("case 2, 4 and 3, 5", "partner systems not compared", ("parted", "gone-over"), "trunk::select::same_group", (
        ("trunk/specs/Selection.antt", "(same_system c.system d.system &&", "(same_system c.system c.system &&"),
        ("trunk/src/select.rt", "((c.system == d.system) & (c.theirs == d.theirs))", "((c.system == c.system) & (c.theirs == d.theirs))"))),
    Mutant("case silence", "a long timeout of 899 ticks", ("silence",), "machine::receive::timeout_time", (
        ("machine/specs/Time.antt", "long_timeout_time = 900", "long_timeout_time = 899"), ("machine/src/receive.rt", "LONG_TIMEOUT_TIME: Ticks = Ticks(900)", "LONG_TIMEOUT_TIME: Ticks = Ticks(899)"))),
    Mutant("case silence", "EXPIRED for 29 ticks", ("silence",), "machine::receive::timeout_time", (
        ("machine/specs/Time.antt", "short_timeout_time = 30", "short_timeout_time = 29"), ("machine/src/receive.rt", "SHORT_TIMEOUT_TIME: Ticks = Ticks(30)", "SHORT_TIMEOUT_TIME: Ticks = Ticks(29)"))),
    Mutant("case the line changes", "a change on an up port that does not act as down, then up", ("from-up_full", "from-up_half"), "port::record::Port::set_line", (
        ("port/specs/Receive.antt", "down l = record { up = false; full = l.full }", "down l = record { up = l.up; full = l.full }"),
        ("port/src/receive.rt", "        self.line.up = false;", "        let old = self.line;\n        self.line.up = old.up;"))),
    Mutant("case churn", "a link at half duplex disabled too", ("halved",), "", (
        ("churn/specs/Churn.antt", "    monitors (watched p.line.up p.actor.synchronization m.actor) (watched p.line.up p.partner.state.synchronization m.partner)",
         "    let on = mathlib.Core.Bool.cond p.line.up p.line.full false in\n    monitors (watched on p.actor.synchronization m.actor) (watched on p.partner.state.synchronization m.partner)"),)),
    Mutant("case churn", "expiry before Synchronization", ("never-settles",), "", (
        ("churn/specs/Churn.antt", "churn_next true Monitor true out = Some NoChurn", "churn_next true Monitor true true = Some Churn\nchurn_next true Monitor true false = Some NoChurn"),)),
    Mutant("case churn", "a link that falls forgets the count", ("never-settles",), "churn::watch::Watch::enter", (
        ("churn/specs/Churn.antt", "churn_entered Monitor w = watch Monitor (ticks churn_detection_time) w.count", "churn_entered Monitor w = watch Monitor (ticks churn_detection_time) 0"),
        ("churn/src/watch.rt", "Churn::Monitor => (CHURN_DETECTION_TIME, self.count)", "Churn::Monitor => (CHURN_DETECTION_TIME, 0)"))),
    Mutant("case churn", "a Churn_Detection_Time of 599 ticks", ("begun", "never-settles"), "churn::watch::Watch::enter", (
        ("churn/specs/Churn.antt", "churn_detection_time = 600", "churn_detection_time = 599"),
        ("churn/src/watch.rt", "CHURN_DETECTION_TIME: u16 = 600", "CHURN_DETECTION_TIME: u16 = 599"))),
    Mutant("case churn", "a tick that leaves the monitors' timers", ("never-settles",), "", (
        ("churn/specs/Whole.antt", "prepared Tick m = monitors_fallen m", "prepared Tick m = m"),)),
    Mutant("case churn", "a partner's monitor that watches the actor", ("never-settles",), "", (
        ("churn/specs/Churn.antt", "(watched p.line.up p.partner.state.synchronization m.partner)", "(watched p.line.up p.actor.synchronization m.partner)"),)),
    Mutant("case 123, 124, 125", "124 octets refused", ("octets_124",), "frame::class::is_illegal", (
        ("frame/specs/Class.antt", "short l = ltb (length l) frame_size", "short l = ltb (length l) 125"),
        ("frame/src/class.rt", "|| s.len() < FRAME", "|| s.len() < 125"))),
    Mutant("case subtypes", "subtype 10 illegal", ("subtype_10",), "frame::class::is_unknown", (
        ("frame/specs/Class.antt", "(leb 3 (octet l 14) && leb (octet l 14) 10)", "(leb 3 (octet l 14) && leb (octet l 14) 9)"),
        ("frame/specs/Class.antt", "odd_subtype l = eqb (octet l 14) 0 || leb 11 (octet l 14)", "odd_subtype l = eqb (octet l 14) 0 || leb 10 (octet l 14)"),
        ("frame/src/class.rt", "(3..=10).contains(subtype)", "(3..=9).contains(subtype)"),
        ("frame/src/class.rt", "matches!(s[14], 0 | 11..)", "matches!(s[14], 0 | 10..)"))),
    Mutant("case passive sender", "a sender in sync though it takes us for another port", ("rest-differs",), "machine::compare::in_sync", (
        ("machine/specs/Compare.antt", "(same_party b us || not a.state.aggregation)", "(same_party us us || not a.state.aggregation)"),
        ("machine/src/compare.rt", "(same_party(b, us) | !a.state.aggregation)", "(same_party(us, us) | !a.state.aggregation)"))),
    Mutant("case passive sender", "a sender taken to be in sync though both ends may be passive", ("says_passive",), "machine::compare::in_sync", (
        ("machine/specs/Compare.antt", "maintained us a b = a.state.activity || (us.state.activity && b.state.activity)",
         "maintained us a b = a.state.activity || (us.state.activity && us.state.activity)"),
        ("machine/src/compare.rt", "(us.state.activity & b.state.activity)", "(us.state.activity & us.state.activity)"))),
]

if __name__ == "__main__":
    main(sys.argv[1:])
