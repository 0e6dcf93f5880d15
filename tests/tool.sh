#!/bin/sh
# Runs the tool with many lists of arguments, and compares what it prints with tests/tool.expected, where a line == NAME begins what the case
# NAME prints. Says how many cases passed; exits 1 on a difference, naming the case. TOOL names another program to run than crates/normalize/out/normalize.
set -eu
cd "$(dirname "$0")/.."
tool=${TOOL:-crates/normalize/out/normalize}
expected=tests/tool.expected
work=$(mktemp -d)
trap 'rm -rf "$work"' EXIT
passed=0
failed=0

# A case: its name, then the arguments.
run() {
    name=$1
    shift
    "$tool" "$@" >"$work/got"
    awk -v name="$name" '/^== / { inside = ($0 == "== " name); next } inside' "$expected" >"$work/expected"
    if cmp -s "$work/expected" "$work/got"; then
        passed=$((passed + 1))
    else
        failed=$((failed + 1))
        echo "tool.sh: case '$name' differs (- expected, + printed):"
        diff -u "$work/expected" "$work/got" | tail -n +4 || true
    fi
}

target=CAAATGGTACCA
letters() { awk -v n="$1" 'BEGIN { for (i = 0; i < n; i++) printf "A" }'; }

printf 'CAAATGGTACCA\n' >"$work/plain"
printf '>one record\ncaaat\nggtacca\n' >"$work/fasta"
printf '>one record\r\nCAAATG\r\nGTACCA\r\n' >"$work/crlf"
printf '>first\nCAAATG\n>second\nGTACCA\n' >"$work/two"
printf '>header only\n' >"$work/header"
printf '' >"$work/empty"
printf 'CAAANTGG\n' >"$work/letter"
letters 65535 >"$work/longest"
letters 65536 >"$work/too_long"
letters 70000 >"$work/longer"
letters 262145 >"$work/large"

run help --help
run deletion --target $target --edit del --range 1 2
run deletion_left --target $target --edit del --range 3 4 --direction left
run insertion --target $target --edit ins --range 3 5 --alt C
run duplication --target $target --edit dup --range 1 2
run replacement --target $target --edit replace --range 4 6 --alt CCC
run replacement_by_nothing --target $target --edit replace --range 1 2 --alt ''
run inversion --target $target --edit inv --range 3 8
run unchanged --target $target --edit inv --range 5 11
run options_in_any_order --range 1 2 --window 1 --edit del --direction right --kind open --target $target
run option_twice --target ACGT --edit ins --target $target --edit del --range 1 2
run lower_case_target --target caaatggtacca --edit del --range 1 2
run transcript --target $target --kind transcript --exons 0-4,4-12 --edit del --range 1 2
run crossing --target $target --kind crossing --exons 0-4,4-12 --edit ins --range 3 5 --alt C
run cds_pair --target $target --kind transcript --exons 0-12 --cds 2 3 --edit del --range 1 2
run cds_start --target $target --kind transcript --exons 0-12 --cds-start 3 --edit del --range 1 2
run cds_end --target $target --kind transcript --exons 0-12 --cds-end 3 --edit del --range 1 2
run plain_file --file "$work/plain" --edit del --range 1 2
run fasta_file --file "$work/fasta" --edit del --range 1 2
run fasta_file_crlf --file "$work/crlf" --edit del --range 1 2
run longest_file --file "$work/longest" --edit del --range 0 1

run refusal_2 --target $target --edit del --range 1 2 --window 1025
run refusal_3 --target '' --edit del --range 1 2
run refusal_3_header --file "$work/header" --edit del --range 1 2
run refusal_3_empty_file --file "$work/empty" --edit del --range 1 2
run refusal_3_too_long --file "$work/too_long" --edit del --range 1 2
run refusal_4 --file "$work/letter" --edit del --range 1 2
run refusal_5 --target $target --edit del --range 11 13
run refusal_6 --target $target --edit ins --range 3 5
run refusal_7 --target "$(letters 1025)" --edit del --range 0 1025
run refusal_8 --target $target --edit ins --range 3 5 --alt acgt
run refusal_10 --target $target --kind transcript --edit del --range 1 2
run refusal_12 --target $target --kind transcript --exons 0-4,6-12 --edit del --range 4 5
run refusal_13 --target $target --kind transcript --exons 0-4,6-12 --edit del --range 3 5
run refusal_14 --target $target --kind transcript --exons 0-4,4-12 --edit ins --range 3 5 --alt C
run refusal_15 --target $target --kind transcript --exons 0-12 --cds-start 4 --edit ins --range 3 5 --alt C
run refusal_16 --target $target --edit ins --range 10 12 --alt GG --direction left

run unknown_option --target $target --edti del --range 1 2
run stray_word $target --edit del --range 1 2
run empty_word '' --target $target
run help_later --target $target --help
run no_value --target $target --range 1 2 --edit
run no_second_value --target $target --edit del --range 1
run bad_kind --target $target --kind Open --edit del --range 1 2
run bad_edit --target $target --edit delete --range 1 2
run bad_direction --target $target --edit del --range 1 2 --direction 3
run bad_window --target $target --edit del --range 1 2 --window x
run bad_range_letters --target $target --edit del --range one two
run bad_range_negative --target $target --edit del --range -1 2
run bad_range_large --target $target --edit del --range 1 2147483648
run largest_range --target $target --edit del --range 1 2147483647
run bad_cds --target $target --kind transcript --exons 0-12 --cds 1 --edit del --range 1 2
run bad_cds_start --target $target --kind transcript --exons 0-12 --cds-start -1 --edit del --range 1 2
run bad_exons_dots --target $target --kind transcript --exons 0..12 --edit del --range 1 2
run bad_exons_comma --target $target --kind transcript --exons 0-4,4-12, --edit del --range 1 2
run bad_exons_empty --target $target --kind transcript --exons '' --edit del --range 1 2
run most_exons --target $target --kind transcript --exons "$(awk 'BEGIN { for (i = 0; i < 512; i++) printf "1-2,"; print "1-2" }')" --edit del --range 1 2
run too_many_exons --target $target --kind transcript --exons "$(awk 'BEGIN { for (i = 0; i < 513; i++) printf "1-2,"; print "1-2" }')" --edit del --range 1 2
run no_edit --target $target --range 1 2
run no_range --target $target --edit del
run no_target --edit del --range 1 2
run two_targets --target $target --file "$work/plain" --edit del --range 1 2
run missing_file --file "$work/none" --edit del --range 1 2
run directory --file "$work" --edit del --range 1 2
run second_record --file "$work/two" --edit del --range 1 2
run file_of_too_many_bases --file "$work/longer" --edit del --range 1 2
run large_file --file "$work/large" --edit del --range 1 2
run target_of_too_many_bases --target "$(letters 70000)" --edit del --range 1 2
run long_arguments --target "$(letters 100000)" --alt "$(letters 100000)" --exons "$(letters 100000)" --edit del --range 1 2

echo "tool.sh: $passed cases passed, $failed differ"
[ "$failed" -eq 0 ]
