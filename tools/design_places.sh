#!/bin/bash
# Counts the places of the points of docs/DESIGN-PASS.md in the crates' src/ (8: in proofs/); with -v prints each place.
# Run it at the top of the repository.
[ "$1" = -v ] && verbose=1
sources() { find crates -name out -prune -o -path '*/src/*' -name '*.rt' -print | sort; }
show() {
    local hits
    hits="$(grep -nE "$3" $(sources) | grep -vE '^[^:]*:[0-9]*: *//' | grep -vE "${4:-^$}")"
    printf '%-3s %3d  %s\n' "$1" "$(printf '%s' "$hits" | grep -c .)" "$2"
    [ -n "$verbose" ] && [ -n "$hits" ] && printf '%s\n' "$hits" | sed 's/^/         /'
}
show 1a 'an Option or a Result taken apart by a match that ok_or, map, ? or is_some says' \
    '(None => (Err\(|None)|Some\(_\) => [01]|Some\([a-z]+\) => Ok\(|Err\([a-z]+\) => return Err|Err\(AllocError\)|if let Some\(_\) = )'
show 1b 'a number or a flag for a refusal, a kind or an absent value' \
    '(fn number\(self\)|reason\.number\(\)|\bms: u8|mask: u8|pub number: u8|refused_line\(.*number: u8)'
show 2 'functions, arms and types that differ only in a constant, a test or a type' \
    '^ +self\.(make|apply)\(\w+::\w+.*level\)+$|return Some\(i\);|=> Ok\(Line::Call\(Event::\w+\(read|struct Refusal \{'
show 3 'a loop over 0..n, or a while' \
    '\bfor \w+ in 0\.\.|\bwhile '
show 4 'equality, conversion or printing by a function of its own' \
    'fn (is_word|complain|up_or_down|owners|read_verb|read_access)\b|fn number\(self\)'
show 5a 'a clause that looks at a segment or a run through a view' \
    '(bus|progress) (self|segment|result)\b'
show 5b 'a clause that says the answer of an event, or what follows it, by itself' \
    'ensures \w+ \{.*(answer|after) (\((Wish|Withdraw|Release) level\)|Arbitrate|event) '
show 5c 'parameters or fields that travel together' \
    'fn .*(second.*third.*fourth|level: &\[u8\], access: &\[u8\])|fn settle|^        level: u8,' 'arbitration_tests'
show 5d 'a private function that takes the allocator to build a piece of a line' \
    '^ *fn (level|levels|bar|join_load|load|join_call|message)\(' '&self'
show 6 'a place, an index or a slot number for a thing' \
    '(-> Option<usize>|\w\[(i|b)\]|slot: usize)'
show 7 'a switch on which step or test to run' \
    'enum (Class|Move)|Class::|step: Move|Move::\w+,? (level|=>)'
printf '8a  %3d  %s\n' "$(find crates -name out -prune -o -path '*/proofs/*/*' -name '*.antt' -print | wc -l)" 'files of invariants and answers'
printf '8b  %3d  %s\n' "$(find crates -name out -prune -o -path '*/proofs/*/*' -name Answers.antt -print | xargs grep -hcE '^pub ' | paste -sd+ | bc)" 'answers'
printf '8c  %3d  %s\n' "$(find crates -name out -prune -o -path '*/proofs/*.antt' -print | grep -vE 'proofs/.*/' | xargs grep -hE '^ *(pub |abbrev )*[a-zA-Z_-]+ : ' | wc -l)" 'lemmas'
printf '8d  %3d  %s\n' "$(find crates -name out -prune -o -path '*/proofs/*' -name '*.antt' -print | xargs grep -hoE '\babsurdly\b' | wc -l)" 'uses of our own lemma that true is not false'
