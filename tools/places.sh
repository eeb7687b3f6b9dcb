#!/bin/sh
# Counts in crates/*/src what docs/DESIGN-PASS.md counts, by text. With -l it lists the lines.
cd "$(dirname "$0")/.." || exit 1
list=$1
count() {
    found=$(find crates/*/src -name '*.r[st]' | sort | xargs grep -nE -e "$2" | grep -vE '^[^:]*:[0-9]*:(// |ghost |use )' | grep -vE -e "${3:-^$}")
    printf '%s: %s\n' "$1" "$(printf '%s' "$found" | grep -c .)"
    [ "$list" = -l ] && printf '%s\n' "$found"
    return 0
}
count '1a own enums' '^ *(pub )?enum '
count '1b bool for a refusal' 'fn (store|build|spend|keep|keep_parameter|accept|begin)\(.*-> bool'
count '1c numbers for kinds' 'number\(\) ==|level: u8|kind: u8|word: u32|take_op\([0-9]|-> u8|^ +[0-9]+(\.\.=[0-9]+)?( \| [0-9.=]+)*( if [^=]*)? =>'
count '1d results handed on by a match' 'Err\((f|exit|fault|error)\) => (return )?Err|Ok\(\(\)\) => Ok\(\(\)\)|Ok\((x|v|n|holds)\) => Ok|Some\((x|v)\) => Ok|None => Err|return Err\(Refusal::Memory\)|Err\(StepExit::Error\('
count '3a loops' '^ *(for|while|loop) |^ *loop \{'
count '3b places by an index' 'for _?i in|for \(i, |\[i\]|\[n - 1\]|\[[a-z_.]+ \+ [a-z]+\]|\bat \+= 1'
count '4 by hand what a trait says' 'fn (same_[a-z]+|number|number_of|punct_of|raised|default_location|no_span|convert_lexer_token|spelling|bears|[a-z]+_line\(heap|u[0-9]+_at|raw_at)\b'
count '5 parameters that go together' '(lexer|feed): &mut F|book: &B'
count '6 stores by lengths and places' '\.len\(\)|\[[a-z_]+( - 1)?\]|\[[a-z_.]+\.\.' 'ensures|requires'
count '7 switches on a step' 'Opening|dyn |fn\('
count '7 closures taken' 'F: Fn'
printf '8 files and lines of proofs: %s %s\n' "$(find crates/*/proofs -name '*.antt' | wc -l)" "$(find crates/*/proofs -name '*.antt' -exec cat {} + | wc -l)"
