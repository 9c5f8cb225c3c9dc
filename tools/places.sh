#!/usr/bin/env bash
# The places that docs/DESIGN-PASS.md counts, at a commit: tools/places.sh [COMMIT]
set -u
at="${1:-HEAD}"

# What a pattern finds in the sources at that commit, under a heading with the count.
count() {
    local title="$1"; shift
    local found
    found="$(git grep -nE "$@" "$at" -- 'crates/*/src/*.rt' 'crates/*/src/**/*.rt' | sed "s/^$at://" | sort -u)"
    printf '%s: %s\n' "$title" "$(printf '%s' "$found" | grep -c .)"
    printf '%s\n' "$found" | sed 's/^/    /'
}

count '1a enums' -e 'enum [A-Z]'
count '1b Option and Result taken apart by hand' -e 'None =>|Ok\([a-z()]*\) =>|Err\([a-z_]+\) =>|let Some\(|let Ok\(|\.is_some\(\)|\.is_none\(\)'
count '1c refusals returned after a test' -e 'return Err\('
count '1d numbers that stand for nothing there' -e '=> 0,|else \{ 0 \}'
count '2 twins' -e 'fn (is_(reading|share|day|place|drawing)|within|starts?|changes?|ends?|enter|proportion|cut_up_to|perform)\b'
count '3 loops and what they go over' -e '^ *(for [^<]* in |while |loop\b)'
count '4a text and numbers made by hand' -e 'fn code\(|Result<String'
count '4b printing, errors and conversions written out' -e '^impl.* (fmt::Display|Error|From<[A-Za-z]+>) for '
count '4c casts' -e '\bas (u8|u16|u32|u64|u128|usize)\b'
count '4d derives that stop at Clone and Copy' -e 'derive\(Clone, Copy(, Debug)?\)'
count '5 what is asked of callers' -e '^ *requires '
count '6 arrays in fields' -e '^ +(pub )?[a-z_]+: \['
count '7 matches on a kind' -e 'match (self|call|cell|\()|dyn |\bfn\('
printf '8 answer files: %s, files of invariants: %s, lemmas: %s\n' \
    "$(git ls-tree -r --name-only "$at" | grep -c 'proofs/.*/Answers.antt$')" \
    "$(git ls-tree -r --name-only "$at" | grep -c 'proofs/.*/Invariants.antt$')" \
    "$(git grep -hE "^ *(pub )?[a-z_']+ : " "$at" -- 'crates/*/proofs/*.antt' 'crates/keys/specs/KeyLaws.antt' | grep -c .)"
