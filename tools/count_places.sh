#!/usr/bin/env bash
# Counts the places in src/ that docs/DESIGN-PASS.md speaks of. Run at the top; another checkout may be named.
set -euo pipefail
cd "${1:-$(dirname "$0")/..}"
src() { cat crates/*/src/*.rt; }
count() { printf '%-72s %5d\n' "$1" "$(src | grep -cE "$2" || true)"; }

echo '1. own enums, flags, numbers for kinds'
count 'a kind of record as a number' '\bcode == |match code|found\.code|^ *(pub )?code: u8|code: [0-9]+, body|^(pub\(crate\) )?const [A-Z]+: u8|code: (u8|[A-Z]+),|^ +[2-4] => '
count 'an enum with a case that holds nothing beside one that holds a value' '^ +(End|None|Nothing),$'
count 'a pair of truth value and value, or a truth value for an outcome' 'Result<\(?bool|-> \(bool'
echo '2. twins'
printf '%-72s %5d\n' 'functions of one name in several places, a trait aside' \
    "$(grep -ohE '^ *(pub |pub\(crate\) )?fn [a-z_0-9]+' crates/*/src/*.rt | sed 's/.*fn //' | sort | uniq -c | awk '$1 > 1' | wc -l)"
printf '%-72s %5d\n' 'structs and enums of one name in several places' \
    "$(grep -ohE '^ *(pub |pub\(crate\) )?(struct|enum) [A-Za-z]+' crates/*/src/*.rt | sed 's/.* //' | sort | uniq -c | awk '$1 > 1' | wc -l)"
printf '%-72s %5d\n' 'constants of one name in several places' \
    "$(grep -ohE '^ *(pub |pub\(crate\) )?const [A-Z_]+' crates/*/src/*.rt | sed 's/.* //' | sort | uniq -c | awk '$1 > 1' | wc -l)"
echo '3. loops'
count 'a number that is counted on by hand' '\+= 1;|\+= [a-z_]+;|saturating_add\(1\)'
count 'a loop without a list, a range or an iterator' '^ *(loop \{|while )'
count 'a loop over a range of numbers' '^ *for [a-z_]+ in [a-z0-9]+\.\.'
count 'an element read or written by an index that a loop counts' '\[[a-z]+( as usize)?\] *(=|\)|&&|,|;)|\[[a-z_]+ as usize\]'
echo '4. equality, order, conversion, printing'
count 'a number converted by `as`' ' as (u8|u16|u32|u64|usize)\b'
count 'an order written by hand' '\.(state|line|prefix) < [a-z]+\.(state|line|prefix)'
count 'an impl of From' 'impl.* From<'
echo '5. facts and parameters that travel together'
count 'a requires' '^ *requires '
count 'a requires of several facts in one clause' '^ *requires .*×'
count 'state bits and lines as two parameters' 'state_bits: u32, lines: u32|bits: u32, lines: u32'
count 'plant and rules as two parameters' 'plant: &P, rules: &\[Rule\]|^ +rules: &\[Rule\],$'
echo '6. buffers, arrays, lists'
count 'a lent buffer with a place beside it' '&mut \[[A-Za-z0-9]+\], (at|count|start): usize|, at: usize'
count 'an index with a test against the length' '< (bytes|held|list)\.len\(\)'
echo '7. switches and tables of functions'
count 'a trait that only asks one question of an element' '^trait '
count 'a closure' '\|[a-z_, *&()]*\| '
echo '8. proofs'
printf '%-72s %5d\n' 'proof files of single functions' "$(find crates/*/proofs -mindepth 2 -name '*.antt' | wc -l)"
printf '%-72s %5d\n' 'lines in them' "$(find crates/*/proofs -mindepth 2 -name '*.antt' -exec cat {} + | wc -l)"
printf '%-72s %5d\n' 'lines of lemma files' "$(cat crates/*/proofs/*.antt | wc -l)"
