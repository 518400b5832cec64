#!/bin/bash
# Counts, in the src/ of all crates, the places that docs/DESIGN-PASS.md speaks of. Run it at the top of a checkout.
# What a line finds has still to be read: the page says which of them are places.
S=$(find crates -name out -prune -o -path '*/src/*.rt' -print | sort)
count() { printf '%-6s %4d  %s\n' "$1" "$(grep -hE -- "$2" $S | wc -l)" "$3"; }
count 1a '^(pub )?(\(crate\) )?enum ' 'enums, to be read for the shape of Option or Result'
count 1b '-> bool$|-> bool \{|-> bool \+|\) -> bool' 'functions that answer a bool, to be read for "no room"'
count 1c 'marks: &(mut )?\[usize\]|: \[usize; ?[0-9]+\]' 'marks and links as numbers, 0 for none'
count 1d 'EXPRESSIONS$|\{ EXPRESSIONS \}|\{ 0 \}$' 'numbers for what is missing'
count 1e 'return None;|None => None|Some\((\w+)\) => return Some\(\1\)' 'matches in place of ? and of combinators'
count 1f 'fn (cause|order|key_of|arity)\(' 'numbers for causes, stages and kinds'
count 2a 'fn (number|line|layer)\(self\)' 'what faults tell'
count 2b 'fn is_same\(|trait Same' 'sameness of records'
count 2c 'fn (blank|blank_rows|blank_items|put_rows|put_items|check_rows|check_items|lent_rows|lent_items|contents_of|rests_of|look|look_up|note|note_down|find|enter|carry|carry_joined)\b' 'functions named in pairs'
count 2d 'Named::Exact => |Named::Heads => ' 'matches on the named relation'
count 3a '^ *while .*[<>]' 'while loops with a counter'
count 3b 'for \w+ in .*\.\..*(len\(\)|count|records)' 'for loops over the numbers of a list'
count 3c 'if \w+ < \w+(\.\w+)*\.len\(\) \{|>= \w+(\.\w+)*\.len\(\)' 'an index tested by hand'
count 4a 'fn (is_same|same|key_of|order|has_ended|is_included|is_element|layer_name|settled_word|cause|read_error|build_error|settles|key_in|kind_in|shape_in|version_in|relation_of|spelled|show_row|show_items|no_ways)\b' 'equality, order, conversion and printing by hand'
count 5a 'machine\.now covers\.now' 'contracts over a machine and its covers'
count 5b 'ghost_name' 'clauses that a loan is kept'
count 5c 'length rows\.now ≤ length marks\.now' 'clauses that marks are as many as rows'
count 5d '≤ 32 \}|≤ 512 \}|Sound nodes|Right rules' 'clauses on what was found of expressions'
count 5e 'plain self\.(old|now)\.grammar|self\.new\.(grammar|covers) ≡' 'clauses on what a register stands on'
count 5f '< 2 \^ 64' 'clauses that a place in the output is no number too large'
count 5g 'rows: &mut \[Row\],? *$|rows: &mut \[Row\], items' 'functions that are lent rows and items'
count 6a 'records: &mut \[Pair\]|\[\(0, 0\); 8\]' 'pairs in a buffer with a count beside it'
count 6b 'Vec::new\(heap\),$' 'vectors beside one another'
count 7a 'enum Class' 'tests chosen by an enum'
