#!/usr/bin/env python3
"""Measures how long it takes to close classes and to find their types, and how that grows with their number.

It makes listings of 5,000, 10,000 and 20,000 classes: one chain that is named against the order, a flat tree, and random
trees with interfaces. A program over the repository's crates, made in a folder of its own, reads each, closes the
classes, finds the types and says how long the first and both took. The toolchain's `rt` proves and builds it, so the first run
takes long. Run it at the top of the repository, with nothing else at work. Closing twice the classes may take 2.3 times
the time; the rows of types are as many bits as targets times types, which in a chain are four times as many.
"""
import os
import random
import shutil
import subprocess
import tempfile

PROGRAM = """\
//! Closes the classes of a listing, finds their types, and says how long this took.
#![tactic(auto)]
ghost use Rattle.std.specs.Prelude.{◌≡◌, false};
ghost use Rattle.wf_classes.specs.Gathering.{IsNew};
ghost use Rattle.wf_grammar.specs.ClassFile.{Spells};

use std::alloc::Global;
use std::fs;
use std::io;
use std::time::Instant;
use wf_asm::assemble;
use wf_base::Items;
use wf_classes::GatheredClasses;
use wf_classfile::write_class;
use wf_data::ClassInfo;
use wf_subtype::types_of;

fn is_named(classes: &[ClassInfo], name: &[u8]) -> bool
    ensures { result ≡ false → IsNew classes.now name.now }
{
    for class in classes {
        if class.name.as_slice() == name {
            return true;
        }
    }
    false
}

fn add(gathered: &mut GatheredClasses, bytes: &[u8], class: ClassInfo) -> bool
    requires { Spells bytes.now class }
{
    let room = bytes.len() <= gathered.left() as usize;
    let few = gathered.list().len() < 65536;
    let named = is_named(gathered.list().as_slice(), class.name.as_slice());
    if room && few && !named {
        gathered.add(bytes, class).is_ok()
    } else {
        false
    }
}

fn gather(alloc: Global, listing: &[u8]) -> Option<GatheredClasses> {
    let mut gathered = GatheredClasses::new(alloc);
    if listing.len() > 100_000_000 {
        return None;
    }
    for class in assemble(alloc, listing).ok()?.into_vec() {
        let file = write_class(alloc, &class).ok()?;
        if !add(&mut gathered, file.as_slice(), class) {
            return None;
        }
    }
    Some(gathered)
}

fn main(rt: HostRuntime) -> io::Result<()> {
    let text = fs::read_to_string(&rt, "listing")?;
    let Some(gathered) = gather(rt.alloc(), text.as_bytes()) else {
        println!(rt; "0 0 0")?;
        return Ok(());
    };
    let start = Instant::now(&rt)?;
    let closed = gathered.close(rt.alloc());
    let closing = start.elapsed(&rt)?;
    let types = match closed {
        Ok(classes) => match types_of(rt.alloc(), classes, &Items::new(rt.alloc())) {
            Ok(types) => types.len(),
            Err(_) => 0,
        },
        Err(_) => 0,
    };
    let both = start.elapsed(&rt)?;
    println!(rt; "{types} {} {}", closing.as_micros(), both.as_micros())?;
    Ok(())
}
"""

# The proof of `is_named`: none of the classes before the one at hand has the name.
PROOFS = {
    "Invariants": """\
use Rattle.std.proofs.Common.{◌≡◌, ℕ, ◌<◌, Some}
use Rattle.std.specs.Prelude.{slice_get}
use Rattle.wf_data.specs.declared.class_info.ClassInfo.{ClassInfo}
use Rattle.closing.proofs.is_named.Given as goal

abbrev pub invariant-loop-class : goal.invariant-loop-class
invariant-loop-class l = (i : ℕ) (k : ClassInfo) → i < l.class-index → slice_get l.fn.classes i ≡ Some k → k.name ≡ l.fn.name → ⊥
""",
    "Answers": """\
use Rattle.std.proofs.Common.{◌≡◌, ℕ, ◌<◌, ◌≤◌, ◌⊎◌, ◌+◌, inl, inr, true, false, length, get_or, subst, sym, ap, ◌∙◌, arith, Some, List}
use Rattle.std.specs.Prelude.{slice_get}
use Rattle.std.specs.Str.{bytes_eq}
use Rattle.std.proofs.lemmas.Bool.{cases_lt, true≢false}
use Rattle.std.proofs.lemmas.Option.{slice_get_within, get_or_from_slice_get}
use Rattle.std.proofs.lemmas.Slice.Eq.{bytes_eq-Decides}
use Rattle.wf_data.specs.declared.class_info.ClassInfo.{ClassInfo}
use Rattle.wf_classes.specs.Gathering.{IsNew}
use Rattle.closing.proofs.is_named.Goals as goal

pub loop-class-preserved : goal.loop-class-preserved
loop-class-preserved c = λ i k lt there named. elim (cases_lt i c.loop-class.class-index) [
  | inl l ↦ c.loop-class.invariant i k l there named
  | inr h ↦
      (let here : slice_get c.args.classes.now c.loop-class.class-index ≡ Some k = subst (λ (j : ℕ). slice_get c.args.classes.now j ≡ Some k) (omega (arith, lt, h)) there in
      let same : c.class-item.result ≡ k = c.class-item.is ∙ get_or_from_slice_get c.args.classes.now c.loop-class.class-index k c.class-item.result here in
      let equal : c.as_slice.result.now ≡ c.args.name.now = c.as_slice.ensures ∙ ap (λ (d : ClassInfo). d.name) same ∙ named in
      let yes : bytes_eq c.as_slice.result.now c.args.name.now ≡ true = (bytes_eq-Decides c.as_slice.result.now c.args.name.now).1 equal in
      absurd (true≢false (sym yes ∙ sym c.if-eq.ensures)))
]

pub returns : goal.returns
returns c = λ e. record { none = λ i k there named. c.loop-class.invariant i k (omega (arith, slice_get_within c.args.classes.now i k there)) there named }
""",
}

CRATES = """\
wf_base:
wf_names: wf_base
wf_descriptor: wf_base wf_names thiserror
wf_data: wf_base wf_names
wf_bytes: wf_base byteorder
wf_lines: wf_base wf_names
wf_lattice: wf_base
wf_grammar: wf_base wf_names wf_descriptor wf_data wf_bytes
wf_classes: wf_base wf_names wf_data wf_bytes wf_grammar thiserror
wf_constpool: wf_base wf_names wf_data wf_bytes wf_grammar thiserror
wf_opcode: wf_base wf_data wf_bytes thiserror
wf_subtype: wf_base wf_names wf_data wf_bytes wf_grammar wf_constpool wf_opcode wf_lattice wf_classes
wf_classfile: wf_base wf_names wf_descriptor wf_data wf_bytes wf_grammar wf_constpool indexmap thiserror
wf_listing: wf_base wf_names wf_descriptor wf_data wf_opcode wf_lines
wf_asm: wf_base wf_names wf_descriptor wf_data wf_bytes wf_grammar wf_opcode wf_listing indexmap thiserror
closing: wf_base wf_names wf_data wf_grammar wf_asm wf_classfile wf_classes wf_subtype
"""


def chain(count):
    """Each class extends the one whose name stands behind its own."""
    lines = [f"class N{i:06} extends N{i + 1:06}" for i in range(count - 2)]
    return lines + [f"class N{count - 2:06}"]


def flat(count):
    return [f"class N{i:06}" for i in range(count - 1)]


def trees(count):
    """Each class extends one of those before it and implements up to three interfaces, and each interface as many."""
    pick = random.Random(count)
    classes, interfaces, lines = ["java/lang/Object"], [], []
    for i in range(count - 1):
        name = f"N{pick.randrange(10**9):09}x{i}"
        some = pick.sample(interfaces, min(len(interfaces), pick.randrange(4)))
        behind = " implements " + " ".join(some) if some else ""
        if pick.random() < 0.2:
            lines.append(f"interface {name}{behind}")
            interfaces.append(name)
        else:
            lines.append(f"class {name} extends {pick.choice(classes)}{behind}")
            classes.append(name)
    return lines


root = os.getcwd()
with tempfile.TemporaryDirectory(prefix="closing-") as folder:
    for line in CRATES.splitlines()[:-1]:
        name = line.split(":")[0]
        shutil.copytree(f"{root}/crates/{name}", f"{folder}/crates/{name}", ignore=shutil.ignore_patterns("out", "must-fail"))
    crate = f"{folder}/crates/closing"
    os.makedirs(f"{crate}/src")
    with open(f"{crate}/src/main.rt", "w", encoding="utf-8") as it:
        it.write(PROGRAM)
    for part in ("specs", "proofs"):
        os.makedirs(f"{crate}/{part}")
        open(f"{crate}/{part}/Lib.antt", "w").close()
    os.makedirs(f"{crate}/proofs/is_named")
    for part, text in PROOFS.items():
        with open(f"{crate}/proofs/is_named/{part}.antt", "w", encoding="utf-8") as it:
            it.write(text)
    with open(f"{folder}/crates.txt", "w", encoding="utf-8") as it:
        it.write(CRATES)
    os.makedirs(f"{crate}/data")
    for shape in (chain, flat, trees):
        before = None
        for count in (5000, 10000, 20000):
            with open(f"{crate}/data/listing", "w", encoding="utf-8") as it:
                it.write("\n".join(["class java/lang/Object"] + shape(count)) + "\n")
            run = subprocess.run(["rt", "run"], cwd=crate, check=True, capture_output=True, text=True)
            types, *took = next(map(int, line.split()) for line in run.stdout.splitlines() if line[:1].isdigit())
            ratios = [f" ({now / then:.2f} times that of half as many)" for now, then in zip(took, before)] if before else ["", ""]
            print(f"{shape.__name__} of {count} classes: closed in {took[0] / 1000:.1f} ms{ratios[0]}, with {types} types in {took[1] / 1000:.1f} ms{ratios[1]}", flush=True)
            before = [max(n, 1) for n in took]
