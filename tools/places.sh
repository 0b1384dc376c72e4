#!/usr/bin/env bash
# Counts the forms of an older Rattle in the code, tests left out: one line for each search, with how many
# lines it finds. With -l the lines themselves. A search finds more than what is wrong; docs/DESIGN-PASS.md
# says of each line found what became of it.
set -euo pipefail
cd "$(dirname "$0")/.."
list=${1:-}
rev=${2:-}
code=('crates/*/src/*.rt' ':!crates/*/src/tests.rt')

search() {
    local name=$1 pattern=$2
    local found
    found=$(git grep -nE "$pattern" $rev -- "${code[@]}" || true)
    printf '%-44s %s\n' "$name" "$(printf '%s' "$found" | grep -c . || true)"
    if [ "$list" = -l ] && [ -n "$found" ]; then printf '%s\n' "$found" | sed 's/^/    /'; fi
}

search '1 arms that number an enum'                '=> [0-9]+,$'
search '1 a refusal that is optional'              'Option<Refusal>'
search '1 None, Ok or Err passed on by hand'       'None => (None|Err)|Err\([a-z_]+\) => (return )?Err\(|Ok\(_\) => Ok|(None|Err\(_\)) => None'
search '1 a flag beside values'                    '^    pub [a-z_]+: bool,$'
search '1 a number for nothing'                    'const (NONE|NO_TREE|EMPTY)\b'
search '1 a number for a kind'                     'code: u8'
search '1 a number answered for a law'             'fn [a-z_]+(<K: Key>)?\(\) -> u8'
search '2 an answer that refuses, built by hand'   'outcome: Err\('
search '2 methods of both makes'                   '^    fn (get|put|drop_pair|pairs_held|capacity|tally|new)\('
search '2 the width of a kind, answered'           'Self::WIDTH$'
search '2 bits split by a constant of the kind'    'if number < 0x'
search '2 a key against the limit of its kind'     '>= (NAMES|STATIONS|MOMENTS)'
search '2 left and right'                          'fn (next|last|first_entry|last_entry|lean_left|lean_right|next_from|last_from)\b'
search '2 a walk over the levels'                  'for level in'
search '3 loops'                                   '^ *(for|while|loop)\b.*\{$'
search '4 order or equality by hand'               'fn (is_before|is_pair|in_turn)\b'
search '4 numbers and bytes of a type by hand'     'fn (number|record|of|from_text|from_bytes|to_bytes|from_bits|to_bits)\('
search '4 types without equality'                  '^#\[derive\(Clone, Copy\)\]$'
search '5 soundness asked for or given'            '(requires|ensures)( [a-z]+)? \{ ([A-Z.a-z]*\.)?([sS]ound|⟦.*⟧\.sound) '
search '5 a table that stands, or is long'         'requires (stands \{ Standing|long \{ length)'
search '5 a forest that stands'                    '(requires|ensures) forest \{'
search '5 levels that tie in'                      '(requires|ensures) trie \{'
search '5 leases that share no station'            '(requires|ensures) (leased|spaced) \{'
search '5 slots that are sound'                    'requires (spread \{ Spread|placed \{ Placed|packed \{ Packed|apart \{ Apart)'
search '5 a tree that stands'                      'requires( tree)? \{ (Standing|Held) nodes'
search '6 a row with its length beside'            '^    (count|spilled|free): u16,$|^    pub\(crate\) (count|free): u16,$|let mut row = \[0u16'
search '6 nodes named by numbers'                  '(left|right): u16,$'
search '7 a switch on what to do'                  'match (call|command|deed|part) \{'
