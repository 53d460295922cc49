#!/bin/sh
# Prints, for each point of docs/DESIGN-PASS.md, the lines of src/ that have to be read for it, and how many there are.
# Run it at the top of a checkout; tests count too.
cd "$(dirname "$0")/.." || exit 2
src=$(find crates/*/src -name '*.rt' | sort)

show() { # POINT WHAT PATTERN
    found=$(grep -nE "$3" $src | grep -vE '^[^:]*:[0-9]+: *//')
    echo "== $1 $2: $(printf '%s' "$found" | grep -c .)"
    printf '%s\n' "$found"
}

show 1 'own enums' '^(pub |pub\(crate\) )?enum '
show 1 'flags' ': bool[,)]'
show 1 'numbers for kinds and refusals' 'fn (number|from_number)\(|\.number\(\)|mode: u64|Refused\(u64\)|_ => 16,'
show 1 'results taken apart by hand' 'Err\((fault|refused|_)\)|unreachable\(\)|let (Ok|Some)\(.*else'
show 1 'an empty text for none' 'next_field\(&mut self\) -> &'
echo "== 2 names of functions that stand more than once: $(grep -hoE 'fn [a-z_0-9]+' $src | sort | uniq -d | grep -c .)"
grep -hoE 'fn [a-z_0-9]+' $src | sort | uniq -c | sort -rn | awk '$1 > 1 { print $1, $3 }'
show 2 'functions and types that differ in a constant, a type or a size' 'fn (sum|difference|product|quotient|next_above|next_below|above|below|divided|share|far_count|number|greatest|least|operation|rule|mode|neighbour|clamp)(<.*>)?\('
show 3 'loops' '^ *(for|while|loop)\b'
show 3 'indices and counts kept by hand' 'enumerate\(|self\.at\b|number\.saturating_add|let (h|e) = '
show 4 'equality, order, copying, conversion and printing by hand' '^impl.* (From|TryFrom|PartialEq|Eq|PartialOrd|Ord|Clone|Default|fmt::Display)(<.*>)? for|fn (is|from_number|number|negative)\(|Said\(Neighbour'
show 4 'casts' ' as [ui][0-9]+'
show 5 'facts in requires' 'requires'
show 5 'parameters that travel together' 'operation: Operation|rule: &R|sign: u64|s: u64|heap: Global|n: u32'
show 6 'buffers, places in them, parallel fields' 'at: usize|Vec<|Vec::new|Words\('
show 7 'switches' 'match (run|rule|self|settings\.mode\(\)|mode|operation|query)\b|\} else if is\('
echo "== 8 lines of proofs/: $(find crates/*/proofs -name '*.antt' | xargs cat | wc -l), answers in $(find crates/*/proofs -name Answers.antt | wc -l) files, invariants in $(find crates/*/proofs -name Invariants.antt | wc -l)"
