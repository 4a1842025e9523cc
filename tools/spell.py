#!/usr/bin/env python3
"""Brings the repository's own definitions, lemmas, record fields and constructors to snake case, in specs/, proofs/ and the clauses of src/.

usage: tools/spell.py            at the top of the repository, once, after the toolchain's own scripts
       tools/spell.py --dry      says what would fall together, and writes nothing

A name is own where a file of specs/, or one right in proofs/, declares it. Functions of src/, exported names, strings, comments' plain words, inputs and outputs stay.
Names that would fall together in one file are set apart by FIXED.
"""
import os
import re
import sys
from collections import defaultdict

ROOT = os.getcwd()
DRY = "--dry" in sys.argv
# Names that snake case alone would make one: a lemma that was told by its dash from the definition that it is about is its law.
# `first_of` is a tactic.
FIXED = {
    "first_of": "first_number", "bad-checkpoint": "bad_checkpoint_law", "bad-page": "bad_page_law", "best-pass": "best_pass_law",
    "by_bytes": "by_bytes_law", "by_number": "by_number_law", "call_rows": "call_rows_law", "change-rows": "change_rows_law",
    "checkpoint-rows": "checkpoint_rows_law", "checkpoint-stride": "checkpoint_stride_law", "clean-on": "clean_on_law", "clean-pages": "clean_pages_law",
    "complete-on": "complete_on_law", "cut-in": "cut_in_law", "cut-leaves": "cut_leaves_law", "cut-tells": "cut_tells_law",
    "data-page": "data_page_law", "drop-bytes": "drop_bytes_law", "drop-checks": "drop_checks_law", "drop-rows": "drop_rows_law",
    "drops-coded": "drops_coded_law", "early-leaves": "early_leaves_law", "early-tells": "early_tells_law", "enter-best": "enter_best_law",
    "entries-in": "entries_in_law", "entry_in": "entry_in_law", "every-bit": "every_bit_law", "first-stride": "first_stride_law",
    "format-more": "format_more_law", "format-reads": "format_reads_law", "format-rows": "format_rows_law", "format-stride": "format_stride_law",
    "format-strides": "format_strides_law", "frame_on": "frame_on_law", "free-rows": "free_rows_law", "front-page": "front_page_law",
    "full-on": "full_on_law", "geometry-rows": "geometry_rows_law", "held-at": "held_at_law", "holds_by": "holds_by_law",
    "in-range": "in_range_law", "is-mark": "is_mark_law", "is-on": "is_on_law", "is-whole": "is_whole_law",
    "last-rows": "last_rows_law", "lent_again": "lent_again_law", "lent_ok": "lent_ok_law", "lent-on": "lent_on_law",
    "line-of": "line_of_law", "listed_in": "listed_in_law", "load-map": "load_map_law", "load-on": "load_on_law",
    "load-rows": "load_rows_law", "lone-op": "lone_op_law", "long-rows": "long_rows_law", "lowest-from": "lowest_from_law",
    "map-bytes": "map_bytes_law", "map-spare": "map_spare_law", "maps-on": "maps_on_law", "new-within": "new_within_law",
    "newer-on": "newer_on_law", "newest-on": "newest_on_law", "newest-rows": "newest_rows_law", "next-free": "next_free_law",
    "next-in": "next_in_law", "next-on": "next_on_law", "next-page": "next_page_law", "no-bit": "no_bit_law",
    "number-fine": "number_fine_law", "number-on": "number_on_law", "number-rows": "number_rows_law", "numbered-rows": "numbered_rows_law",
    "other-number": "other_number_law", "other-plane": "other_plane_law", "page-at": "page_at_law", "page-bytes": "page_bytes_law",
    "page-kind": "page_kind_law", "page-rows": "page_rows_law", "page-stride": "page_stride_law", "past-block": "past_block_law",
    "pick-by": "pick_by_law", "place_at": "place_at_law", "place-rows": "place_rows_law", "places-coded": "places_coded_law",
    "places-ok": "places_ok_law", "plane-coded": "plane_coded_law", "plane-rows": "plane_rows_law", "read-part": "read_part_law",
    "reclaim-rows": "reclaim_rows_law", "scan-on": "scan_on_law", "scan-rows": "scan_rows_law", "slide-on": "slide_on_law",
    "slide-rows": "slide_rows_law", "sorted-by": "sorted_by_law", "spare-first": "spare_first_law", "stride-rows": "stride_rows_law",
    "strides-done": "strides_done_law", "taken-on": "taken_on_law", "torn-rows": "torn_rows_law", "torn-scan-rows": "torn_scan_rows_law",
    "turn-rows": "turn_rows_law", "used-on": "used_on_law", "wanted_by": "wanted_by_law", "whole-on": "whole_on_law",
    "with-last": "with_last_law", "with-number": "with_number_law", "with-place": "with_place_law", "with-version": "with_version_law",
    "with-work": "with_work_law", "with-zones": "with_zones_law", "work-coded": "work_coded_law", "work-ok": "work_ok_law",
    "work-on": "work_on_law", "zone-bytes": "zone_bytes_law", "zone-page-ok": "zone_page_ok_law", "zone-spare": "zone_spare_law",
}
WORD = re.compile(r"[A-Za-z_\u00c0-\u024f\u0370-\u03ff\u2080-\u209c][\w'\u2080-\u209c]*(?:-[\w'\u2080-\u209c]+)*")
DECL = re.compile(r"^\s*(?:(?:abbrev|unfoldable|pub|opaque|private)\s+)*((?:[A-Za-z_][\w'\u2080-\u209c-]*))\s*:(?!:)")


def files(*suffixes):
    for base, dirs, names in os.walk(os.path.join(ROOT, "crates")):
        dirs[:] = sorted(d for d in dirs if d != "out")
        for n in sorted(names):
            if n.endswith(suffixes):
                yield os.path.join(base, n)


def snake(w):
    if w in FIXED:
        return FIXED[w]
    if w[0].isupper():
        return w
    s = w.replace("-", "_")
    s = re.sub(r"(?<=[a-z0-9'])([A-Z])", lambda m: "_" + m.group(1).lower(), s)
    s = re.sub(r"([A-Z]+)", lambda m: m.group(1).lower(), s)
    return s


def split_comment(line):
    k = line.find("--")
    return (line, "") if k < 0 else (line[:k], line[k:])


def is_shared(path):
    """A file of specs/, or one right in proofs/: what it declares is a definition or a lemma."""
    parts = os.path.relpath(path, ROOT).split(os.sep)
    return path.endswith(".antt") and (parts[2] == "specs" or (parts[2] == "proofs" and len(parts) == 4))


def declared(path):
    out = set()
    for line in open(path, encoding="utf-8"):
        code, _ = split_comment(line)
        m = DECL.match(code)
        if m:
            out.add(m.group(1))
    return out


IMPORT = re.compile(r"use\s+([\w.\u00b7+-]+?)\.\{([^}]*)\}")


def foreign(text):
    """Names that a file takes from a library."""
    out = set()
    for path, names in IMPORT.findall(text):
        parts = path.split(".")
        own = parts[0] == "Rattle" and len(parts) > 1 and os.path.isdir(os.path.join(ROOT, "crates", parts[1]))
        generated = own and ("declared" in parts or (parts[2:3] == ["proofs"] and parts[-1] in ("Tie", "Goals", "Given", "Statement", "Lts", "Reads")))
        if not own or generated:
            out |= {n.strip().split(" as ")[-1].strip() for n in names.split(",")}
    return out


def main():
    own = set()
    for p in files(".antt"):
        if is_shared(p):
            own |= declared(p)
    if own & set(FIXED.values()):
        sys.exit("spell.py has run here before: a second run would take definitions for the lemmas about them")
    turn = {n: snake(n) for n in own if snake(n) != n}
    clash = 0
    for p in files(".antt"):
        text = open(p, encoding="utf-8").read()
        lib = foreign(text)
        words = set()
        for line in text.split("\n"):
            words |= set(WORD.findall(split_comment(line)[0]))
        made = defaultdict(set)
        for w in words:
            made[turn[w] if w in turn and w not in lib else w].add(w)
        for new, olds in sorted(made.items()):
            if len(olds) > 1:
                clash += 1
                print(f"{os.path.relpath(p, ROOT)}: {new}: {' '.join(sorted(olds))}")
        for w in sorted(words & lib & set(turn)):
            print(f"{os.path.relpath(p, ROOT)}: {w} is the library's here")
    print(f"{len(turn)} names to turn, {clash} fall together")
    if DRY:
        return
    for p in files(".antt", ".rt"):
        text = open(p, encoding="utf-8").read()
        lib = foreign(text)
        tied = set() if is_shared(p) or p.endswith(".rt") else declared(p)

        def put(m):
            w = m.group(0)
            if w == "first_of" and m.string[m.start() - 1 : m.start()] == ".":
                return w
            return turn[w] if w in turn and w not in lib and w not in tied else w

        if p.endswith(".antt"):
            lines = []
            for line in text.split("\n"):
                code, rest = split_comment(line)
                k = code.find("{") if code.lstrip().startswith("use ") else 0
                code = code[:k] + WORD.sub(put, code[k:]) if k >= 0 else code
                # in a comment only what stands between backquotes, and camel case, is a name
                rest = re.sub(r"`[^`]*`", lambda m: WORD.sub(put, m.group(0)), rest)
                rest = re.sub(r"\b[a-z]+[A-Z]\w*", put, rest)
                lines.append(code + rest)
            new = "\n".join(lines)
        else:
            new = clauses(lent(text), put)
        if new != text:
            open(p, "w", encoding="utf-8").write(new)


SIGNATURE = re.compile(r"\bfn \w+(?:<[^>]*>)?\(.*?\n?\s*\{\n", re.S)


def lent(text):
    """`array`, of which the toolchain's own scripts leave the older words: `.now` of a `&`, `.old` and `.new` of a `&mut`."""

    def turn(m):
        t = m.group(0)
        if re.search(r"\barray: &mut ", t):
            return t.replace("array.entry.now", "array.old").replace("array.exit.now", "array.new")
        return t.replace("array.entry.now", "array.now")

    return SIGNATURE.sub(turn, text)


GHOST = re.compile(r"(ghost use [^;]*;|(?:requires|ensures)(?:\s+\w+)?\s*\{|ghost\s+[^{;]*\{)")


def clauses(text, put):
    """The names in ghost imports, clauses and ghost items of a source file; in comments those between backquotes and in camel case."""
    out, i = [], 0
    while True:
        m = GHOST.search(text, i)
        if not m:
            out.append(comments(text[i:], put))
            return "".join(out)
        out.append(comments(text[i : m.start()], put))
        j = m.end()
        if text[j - 1] == "{":
            depth = 1
            while depth:
                depth += {"{": 1, "}": -1}.get(text[j], 0)
                j += 1
        k = text.index("{", m.start()) if "{" in text[m.start() : j] else j
        out.append(text[m.start() : k] + WORD.sub(put, text[k:j]))
        i = j


def comments(text, put):
    lines = []
    for line in text.split("\n"):
        k = line.find("//")
        if k >= 0:
            rest = re.sub(r"`[^`]*`", lambda m: WORD.sub(put, m.group(0)), line[k:])
            line = line[:k] + re.sub(r"\b[a-z]+[A-Z]\w*", put, rest)
        lines.append(line)
    return "\n".join(lines)


if __name__ == "__main__":
    main()
