#!/usr/bin/env bash
# Layers laws of one sort and of different sorts, and takes figures of one unit for those of another, in scratch crates: the
# compiler must refuse the lines marked `unlike`, each for its types, and no other line. No edit of a crate can show this, since an
# edit has to compile.
set -eu
top=$(cd "$(dirname "$0")/.." && pwd)
scratch=$(mktemp -d)
trap 'rm -rf "$scratch"' EXIT

for name in rules units laws pull_table layers; do
    mkdir -p "$scratch/crates/$name"
    cp -r "$top/crates/$name/src" "$top/crates/$name/specs" "$scratch/crates/$name/"
    if [ -d "$top/crates/$name/proofs" ]; then cp -r "$top/crates/$name/proofs" "$scratch/crates/$name/"; fi
    grep -E "^$name:" "$top/crates.txt" >> "$scratch/crates.txt"
done
for name in layered measured; do
    echo "$name: layers pull_table laws units rules" >> "$scratch/crates.txt"
    mkdir -p "$scratch/crates/$name/src"
done

cat > "$scratch/crates/layered/src/lib.rt" <<'CODE'
#![tactic(auto)]

use laws::{AdhesionPull, CastIron, Composite, NoPull, QuadraticDrag, WagonDrag};
use layers::{Blend, Lesser, Scale};
use pull_table::PullTable;
use rules::{PointFigures, Refusal};

pub fn layered() -> Result<(), Refusal> {
    let table = PullTable::new(&[PointFigures::new(0, 40_000)])?;
    let adhesion = AdhesionPull::new(1000)?;
    let _ = Blend::new(CastIron, Composite, 1, 1)?;
    let _ = Blend::new(Scale::new(table, 90)?, adhesion, 1, 1)?;
    let _ = Blend::new(WagonDrag, QuadraticDrag::df4(), 1, 1)?;
    let _ = Lesser::new(Composite, CastIron);
    let _ = Lesser::new(NoPull, table);
    let _ = Blend::new(CastIron, NoPull, 1, 1)?; // unlike
    let _ = Blend::new(NoPull, CastIron, 1, 1)?; // unlike
    let _ = Blend::new(Composite, table, 1, 1)?; // unlike
    let _ = Blend::new(adhesion, CastIron, 1, 1)?; // unlike
    let _ = Blend::new(adhesion, WagonDrag, 1, 1)?; // unlike
    let _ = Blend::new(CastIron, WagonDrag, 1, 1)?; // unlike
    let _ = Blend::new(QuadraticDrag::df4(), NoPull, 1, 1)?; // unlike
    let _ = Blend::new(Scale::new(CastIron, 90)?, NoPull, 1, 1)?; // unlike
    let _ = Lesser::new(CastIron, NoPull); // unlike
    let _ = Lesser::new(adhesion, Composite); // unlike
    let _ = Lesser::new(Scale::new(table, 90)?, CastIron); // unlike
    let _ = Lesser::new(NoPull, Blend::new(CastIron, Composite, 1, 1)?); // unlike
    let _ = Lesser::new(Composite, WagonDrag); // unlike
    let _ = Lesser::new(WagonDrag, WagonDrag); // unlike: of drags there is no lesser
    Ok(())
}
CODE

cat > "$scratch/crates/measured/src/lib.rt" <<'CODE'
#![tactic(auto)]

ghost use Rattle.rules.specs.Formulas.{cast_iron};
ghost use Rattle.std.proofs.Common.{rules};

use laws::{CastIron, Formula, Reading, Running, WagonDrag};
use units::{
    ExactValue, Friction, Grade, Kgf, KilogramsForce, Milli, MilliPerTonne, SpecificForce, Speed,
};

/// A friction that is stated as a pull.
pub struct FrictionAsPull;

impl Formula for FrictionAsPull {
    type Unit = KilogramsForce;

    type Place = Speed;

    ghost value = { λ _ v. cast_iron v };

    ghost proper = { Prim.search rules };

    ghost most = { Prim.search rules };

    fn exactly(&self, v: Speed) -> ExactValue<KilogramsForce> {
        CastIron.exactly(v) // unlike
    }
}

pub fn measured(at: Running) {
    let _: Reading<MilliPerTonne> = Reading::from(WagonDrag.exactly(at));
    let _: Reading<KilogramsForce> = Reading::from(WagonDrag.exactly(at)); // unlike
    let _: Milli = WagonDrag.exactly(at).down();
    let _: Kgf = WagonDrag.exactly(at).down(); // unlike
    let _: Friction = WagonDrag.exactly(at).up(); // unlike
    let _: Grade = WagonDrag.exactly(at).down(); // unlike
    let _: Milli = Grade::from_milli(-100).fall();
    let _: Milli = Grade::from_milli(-100); // unlike
    let _: Grade = SpecificForce::holding(Milli::new(1), Milli::new(1), Grade::from_milli(-100));
    let _: Grade = SpecificForce::holding(Friction::new(1), Milli::new(1), Grade::from_milli(-100)); // unlike
    let _: Grade = SpecificForce::holding(Milli::new(1), Milli::new(1), Milli::new(1)); // unlike
}
CODE

for name in layered measured; do
    cd "$scratch/crates/$name"
    rt check > "$scratch/told" 2>&1 && { echo "$name: unlike figures are taken for one another"; exit 1; }
    wanted=$(grep -n "// unlike" src/lib.rt | cut -d: -f1)
    types='error\[(mismatched-types|mismatched-associated-type|unsatisfied-bound)\]'
    refused=$(grep -E "^src/lib\.rt:[0-9]+:[0-9]+: $types" "$scratch/told" | cut -d: -f2 | sort -nu)
    if [ "$wanted" != "$refused" ] || grep -E '(^|[ :])error' "$scratch/told" | grep -qvE "$types"; then
        cat "$scratch/told"
        echo "$name: the compiler refuses other lines than those that are unlike"
        exit 1
    fi
    echo "$name: $(echo "$wanted" | wc -l) lines refused for their types"
done
