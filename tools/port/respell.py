#!/usr/bin/env python3
"""Brings the definitions and lemmas of this repository to the spelling of today's Rattle, which port.py does for some of them alone.

usage: respell.py            at the top of the repository, after port.py, once

A word of antt that begins with a small letter and has capitals in it, as `pinnedMark`, is written in snake case, as `pinned_mark`, in every .antt and .rt
file and in the wrong edits. A dash joins the parts of a name, and each part is respelled by itself. Types, records, modules and constructors begin with a
capital and stay; so do names that the toolchain's libraries have. Functions of src/, strings, inputs and outputs have no such word.

It stops, and writes nothing, where two names would fall together.
"""

import os
import re
import sys

WORD = re.compile(r"[A-Za-zÀ-ÿΑ-ωℓℕℤ₀-₉0-9_'≡≢<>≤-]+")
CAMEL = re.compile(r"[a-z][a-z0-9']*(?:[A-Z][a-z0-9']*)+\Z")
USE = re.compile(r"^(?:(?:unfoldable|pub|ghost) )*use ([^\s{;]+)\.\{([^}]*)\}", re.M)
# Lemmas whose name a definition now has, by the files that name both: a lemma of a definition's name ends in _lem.
LEMMAS = {
    "rounds/proofs/finish_on/Proof.antt": ["after_finish"],
    "splitting/proofs/Splitting.antt": ["by_place"],
    "rules/proofs/Places.antt": ["fit_sides"],
    "coarse/proofs/Body.antt": ["fit_sides"],
    "coarse/proofs/Run.antt": ["fit_sides"],
    "rules/proofs/Topology/Start.antt": ["kept_byte"],
    "components/proofs/Finding.antt": ["near_by"],
    "replies/proofs/FromC.antt": ["open_next"],
    "coarse/proofs/Wrong.antt": ["two_blocks"],
    "coarse/proofs/Examples.antt": ["two_blocks"],
}
# These words are also names of functions of src/, of variables or of lemmas of other files, which no file has beside the definition's own name.
BESIDE = set(
    "along_x along_y along_z any_around any_pending bare_groups begin_checks begin_coarse block_dist block_row block_status byte_at can_open can_pass "
    "carve_and_open carved_line carved_to_end coarse_checks coarse_run crossing_at edge_negative file_line first_around fit_side fit_up_to grids_in "
    "group_key height_at held_key held_up in_order index_at is_kept is_pending is_point kept_in label_of layer_answer layer_at layer_length layer_of "
    "layer_values left_by marked_status may_go new_record no_record odd_rank one_more part_at point_from point_on push_all read_answer read_layer "
    "read_up_to record_at record_in record_length record_out refusal_of refused_line served_last sides_in split_at surface_height take_at tally_after "
    "test_of to_open touched_cells touched_groups unfit_counts unfit_side unfit_sides up_at value_of voxel_key worked_at write_answer written_length "
    "written_out after_finish by_place fit_sides kept_byte near_by open_next two_blocks".split()
)


def files():
    for above, folders, names in os.walk("crates"):
        folders[:] = sorted(f for f in folders if f != "out")
        for name in sorted(names):
            if name.endswith((".antt", ".rt", ".edit")):
                yield os.path.join(above, name)


def snake(part):
    return re.sub(r"([a-z0-9'])([A-Z])", r"\1_\2", part).lower() if CAMEL.match(part) else part


def respelled(word):
    return "-".join(snake(part) for part in word.split("-"))


def main():
    own = {c for c in os.listdir("crates")}
    texts = {}
    for path in files():
        with open(path, encoding="utf-8") as f:
            text = f.read()
        for lemma in LEMMAS.get(path[len("crates/") :], []):
            text = re.sub(rf"(?<![\w'.-]){lemma}(?![\w'.-])", lemma + "_lem", text)
        texts[path] = text
    kit, words = set(), set()
    for text in texts.values():
        for module, names in USE.findall(text):
            crate = module.split(".")[1] if module.startswith("Rattle.") else None
            if crate not in own:
                kit.update(re.split(r"[\s,]+", names))
        words.update(WORD.findall(text))
    table = {w: respelled(w) for w in words if w not in kit and respelled(w) != w}
    met, wrong = {}, False
    for old, new in sorted(table.items()):
        if new in words and new not in BESIDE or new in met:
            wrong = True
            print(f"{old} would be {new}, which {met.get(new, 'the repository')} has")
        met[new] = old
    if wrong or "--look" in sys.argv:
        return 1
    for path, text in texts.items():
        with open(path, "w", encoding="utf-8") as f:
            f.write(WORD.sub(lambda m: table.get(m[0], m[0]), text))
    with open("tools/port/respelled.tsv", "w", encoding="utf-8") as f:
        f.write("".join(f"{old}\t{new}\n" for old, new in sorted(table.items())))
    print(f"{len(table)} names")
    return 0


if __name__ == "__main__":
    raise SystemExit(main())
