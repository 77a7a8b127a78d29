#!/bin/bash
# Counts the places that docs/DESIGN-PASS.md speaks of, in src/ at a commit: bash tools/design_counts.sh [-l] [COMMIT]. With -l the places too.
list=no; if [ "$1" = -l ]; then list=yes; shift; fi
at=${1:-HEAD}
count() { # point, what is counted, pattern
    found=$(git grep -nE "$3" "$at" -- 'crates/*/src/*.rt' | sed "s/^$at://")
    printf '%-3s %4d  %s\n' "$1" "$(printf '%s' "$found" | grep -c .)" "$2"
    if [ $list = yes ]; then printf '%s\n' "$found" | sed 's/^/          /'; fi
}
count 1a 'enums'                                          '^(pub(\(crate\))? )?enum '
count 1b 'fields that are flags'                          '^\s+(pub )?[a-z_]+: bool,$'
count 1c 'numbers given where nothing is found'           '^fn (row_fault|first_odd|hex_at|digit_at|flag_at|mode_digit|zero_modes|allowed_rows)\('
count 1d 'kinds, modes and orders as numbers: parameters' '\b(kind|mode|order): (usize|u16|u32|u64)'
count 2a 'one function for each type'                     '^\s*(pub(\(crate\))? )?(const )?fn (first|first_u16|first_i32|first_weights|put_u8|put_u16|put_i32|untouched|all_zero|clear|total|samples|slots|put_samples|put_slots|over|wide|run|run_all|reply|show_reply)\b'
count 2b 'one type for each type that it holds'           '^(pub(\(crate\))? )?enum (Num|Sample|Scan|RowCheck|Total|Jpeg|Banded|Expanded|Taken) '
count 3  'loops that count by hand (while)'               '^\s+while '
count 4a 'tests by early return true or false'            'return (true|false);'
count 4b 'conversions and matches by hand'                '^\s*(pub(\(crate\))? )?fn (wide|long|signed|width|is_done|is_refused|has_rows|jpeg_number|order|magnitude_of|plus_of|minus_of|said_[a-z]+|told)\('
count 5a 'a slice and a place in it as two parameters'    '\b(s|text|bytes|out): &(mut )?\[u8\], (at|bit): (usize|u64)'
count 5b 'the two arenas as two parameters'               'straight: &'
count 5c 'three channels as three names'                  '\b(v0|s0): |^pub(\(crate\))? struct Weights'
count 6a 'constant tables'                                '^\s*(pub(\(crate\))? )?const [A-Z_0-9]+: \['
count 6b 'fixed buffers'                                  'let mut [a-z_]+ = \['
count 7  'switches by a bool or a number'                 '\b(keys|hex|has|yes): bool|field\(s, at, 2\)'
