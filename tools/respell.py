#!/usr/bin/env python3
"""Respells the names of specs/ and proofs/ in snake case: `sanLimit` is `san_limit`, `bytes-are` is `bytes_are`.

usage: python3 tools/respell.py [FOLDER]     once, right after the kit's port.py, at the top of the repository

Names that begin with a capital (types, facts, modules) stay, and so do the library's own names, in which a dash joins two words.
Strings, bytes as `b'N'`, numbers and the words of comments stay: of a comment only names are turned that the code has too, those with a dash only in
backquotes. A lemma whose new name would be a definition's, or another lemma's, gets `_lem`.
"""
import glob
import os
import re
import sys

# What the library calls so.
KEPT = set("""
add-four add-mul add-one add-one-dec add-one-le add-sub_cancel_left add-three add-two add-zero and-eq-true_iff and-false and-true
append-nil div-add-mod' drop-append-le drop-append_seam drop-cons drop-drop drop_of_length-le eq-eqb eqb-false eqb-suc-suc eqb-true
get_or-append_seam get_or-drop get_or-map get_or-set_other get_or-set_same get_or-take le-leb le-ltb le_of_suc-le-suc leb-false
leb-suc-suc leb-true length-append length-drop length-map length-replicate length-set length-slice length-take length-take-le lt-leb
lt-ltb lt-wf_rel ltb-false ltb-true mod-lt mul-one mut_slice_Tells not-false not-suc-le-zero not-true or-false or-true paste-suc
paste-zero replicate-append-replicate shl-shr shr_slice_Lawful shr_slice_Tells slice-cons some-injective sub-zero suc-add suc-sub-suc
take-append-drop take-append_seam take-length take-nil take-suc take-suc-set take-take uint_Lawful uint_Makes uint_Tells walk_Meets
zero-add zero-le zero-sub
""".split())
MADE = re.compile(r"(invariant|decreases)-")
# Lemmas whose plain name is taken.
LEMMAS = set("""
attribute-kind attribute-next attribute-row beckethand-list beckethand-verdict cn-kind cn-tag cn-text constraints-rows content-at
content-start dns-breaks dns-kind domain-of domain-within element-end element-size entry-text first-broken first-pair form-sides from-c
good-identifier good-names good-records good-reference good-references good-to-write half-label half-matches is-ldh is-letter is-noted
is-srv-oid kind-of lengths-fit name-at name-key name-kind name-of name-text names-start no-element noted-text one-length other-form
others-pass outcome-by put-element put-name put-names put-records put-srv put-start put-text read-constraints record-bytes record-values
record-writer records-limit reference-at references-from same-domain san-names san-rows san-values san-writer seen-rows service-is
service-of set-laws set-presents shown-at side-at srv-kind srv-text step-at string-at subject-rows subtree-at subtree-next subtree-row
sums-to tagged-text text-length two-labels uri-kind view-at wild-matches with-place witness-place
""".split())
NAME = re.compile(r"(?<![\w'?-])[a-z_][\w'?]*(?:-[\w'?]+)*")
STRING = re.compile(r'"(?:[^"\\]|\\.)*"|\bb\'(?:[^\'\\]|\\.)\'')


def snake(name):
    name = name.replace("-", "_")
    name = re.sub(r"(?<=[a-z0-9])(?=[A-Z])", "_", name)
    name = re.sub(r"(?<=[A-Z])(?=[A-Z][a-z])", "_", name)
    return name.lower()


def own(name):
    return ("-" in name or re.search(r"[A-Z]", name)) and name not in KEPT and not MADE.match(name)


def turned(name):
    return snake(name) + ("_lem" if name in LEMMAS else "") if own(name) else name


def comment_at(line, mark):
    """Where the line's comment begins, outside strings."""
    bare = STRING.sub(lambda m: "\0" * len(m.group()), line)
    at = bare.find(mark)
    return len(line) if at < 0 else at


def outside_strings(text, turn):
    out, last = [], 0
    for m in STRING.finditer(text):
        out += [NAME.sub(turn, text[last:m.start()]), m.group()]
        last = m.end()
    return "".join(out + [NAME.sub(turn, text[last:])])


def in_comment(text, known):
    def plain(m):
        n = m.group()
        return turned(n) if n in known and "-" not in n else n

    parts = text.split("`")
    for i, part in enumerate(parts):
        if i % 2:
            parts[i] = NAME.sub(lambda m: turned(m.group()) if m.group() in known else m.group(), part)
        else:
            parts[i] = NAME.sub(plain, part)
    return "`".join(parts)


def files(top):
    for kind in ("*/specs/**/*.antt", "*/proofs/**/*.antt", "*/src/**/*.rt", "*/must-fail/*.edit"):
        for f in sorted(glob.glob(os.path.join(top, "crates", kind), recursive=True)):
            if "/out/" not in f:
                yield f


def mark_of(path):
    return {".antt": "--", ".rt": "//", ".edit": "\n"}[os.path.splitext(path)[1]]


def names_of(top):
    known = set()
    for f in files(top):
        if f.endswith(".antt"):
            for line in open(f, encoding="utf-8"):
                known |= set(NAME.findall(STRING.sub('""', line[:comment_at(line, "--")])))
    return {n for n in known if own(n)}


def main(top):
    known = names_of(top)
    for f in files(top):
        edit = f.endswith(".edit")
        lines = []
        for line in open(f, encoding="utf-8"):
            at = 0 if edit and line.startswith("#") else comment_at(line, mark_of(f))
            code, rest = line[:at], line[at:]
            if edit and code.startswith("file:"):
                code, rest = "", line
                lines.append(line)
                continue
            lines.append(outside_strings(code, lambda m: turned(m.group())) + in_comment(rest, known))
        text = "".join(lines)
        if text != open(f, encoding="utf-8").read():
            open(f, "w", encoding="utf-8").write(text)
    return 0


if __name__ == "__main__":
    raise SystemExit(main(sys.argv[1] if len(sys.argv) > 1 else "."))
