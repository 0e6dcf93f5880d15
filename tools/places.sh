#!/bin/sh
# Counts, in the sources of a checkout (its top is the argument, else this one), the places that docs/DESIGN-PASS.md speaks of.
set -eu
cd "${1:-$(dirname "$0")/..}"
sources() { find crates/*/src -name '*.rt' | sort; }
count() { # POINT WHAT PATTERN
    printf '%s  %4d  %s\n' "$1" "$(sources | xargs grep -hE -- "$3" | wc -l)" "$2"
}
count 1 'enums of two cases or more that stand for Option or Result' \
    'enum (ExonFound|PieceFound|Outcome|Coordinate|Range|Beside|Way|Number|Letters|Exons|Bound|Interval|Step|Asked|File|Target|Reached|Gathered)\b'
count 1 'fields that say whether the rest of the struct counts' '^ *(pub )?(whole): bool,'
count 1 'numbers for what is no number: constants for options, a word or an edit that was not given' 'const [A-Z_]+: u(32|size) = ([0-9]|1[0-9]|18446744073709551615);'
count 1 'arms that give a number for a case' '^ *[A-Z][A-Za-z]*::[A-Za-z]+(\(_\))? => [0-9]+,$'
count 1 'names looked up by the number of a line' 'lines::line\('
count 2 'functions and types of which a twin goes the other way' \
    'fn (normalize_alleles_(right|left)_inner|window_(right|left)|slide_(right|left)|normalize_alleles_(5_to_3|3_to_5)|trim_common_(prefixes|suffixes)|common_(front|back|end)|copy_(before|after)|trim_(front|back)(_in)?|keep_(front|back)(_in)?|push_(front|back)(_in)?|store_(front|back)|after|before_last)\('
count 2 'functions that make an array of one size' 'fn [a-z_]*room[a-z_]*\(\) -> \[u8'
count 2 'exports of one name' 'fn sundrimel_normalize\('
count 3 'loops with `while`' '^ *while '
count 4 'equality, order, conversion and copying by hand' \
    'fn (least|greater|same_bases|refusal_number|class_number|kind_of|edit_of|direction_of|bound_of|coordinate_of|write_part|raised|is_copy|is_inverted|wide|upper|number_at|put_little_endian|signed_at|signed_long_at)\('
count 4 'calls of an equality of slices that is no `==`' 'check::same\('
count 4 'functions that put a text on a page' 'fn put(_[a-z_]+)?\('
count 4 'types that derive Drop alone' 'derive\(Drop\)'
count 5 'parameters that are a part of a rotating buffer' '^ *[a-z_]*(head|count|rh|rn|ah|an): usize,$|&(mut )?\[u8; 2048\]'
printf '5  %4d  functions of seven parameters or more\n' "$(sources | xargs python3 -c "
import re, sys
n = 0
for path in sys.argv[1:]:
    for f in re.finditer(r'\bfn \w+(?:<[^>]*>)?\(([^)]*)\)', open(path).read()):
        n += len([p for p in f[1].split(',') if ':' in p]) >= 7
print(n)")"
count 6 'lent buffers with the length that is used beside them' 'used: usize'
count 6 'indices into a text in place of its part' '\b(from|at|place|word|letters|path): usize\b'
count 7 'functions in tables, or chosen by a number' '\[fn\(|dyn Fn|step: u(8|32|size)'
printf '8  %4d  lines of answers and invariants written for functions\n' "$(find crates/*/proofs -name Answers.antt -o -name Invariants.antt | xargs cat | wc -l)"
