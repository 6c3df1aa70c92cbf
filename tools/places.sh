#!/bin/sh
# Counts places in src/ that docs/DESIGN-PASS.md speaks of: tools/places.sh [TREE], and with LIST=1 it lists them.
cd "${1:-.}" || exit 1
count() {
    point=$1 what=$2 pattern=$3 but=${4:-'^$'}
    found=$(grep -rnE "$pattern" crates/*/src --include=*.rt | grep -vE "$but" | grep -vE ':[0-9]+: *//')
    printf '%s %4d  %s\n' "$point" "$(printf '%s' "$found" | grep -c .)" "$what"
    if [ -n "$LIST" ]; then printf '%s\n' "$found" | sed 's/^/        /'; fi
}
count 1a 'arms on a number' '^ *(Some\()?[0-9]+\)?( \| [0-9]+)* =>'
count 1b 'constants that are codes or kinds' 'const (TRUTH|NOT|AND|QUESTION|NEXT|KIND): u8'
count 1c 'codes given as numbers' 'code: ([0-9]|[A-Z]+,)|=> (Ok\()?[0-9]+\)?,$|Ok\([34]\)$'
count 1d 'flags as parameters' '(fn [^;]*|^ +)[a-z_]+: bool[,)]' 'pub [a-z_]+: bool,|ghost'
count 1e 'own enums' 'enum [A-Z]'
count 2a 'functions that make a refusal of one layer' 'fn refus(e|al)\('
count 2b 'refusals written out' '(Err\(|^ *|\()Refusal \{$' 'impl|struct'
count 2c 'limits and blanks that stand in several files' 'const (NODES|MOST_NODES|QUESTIONS|MOST_QUESTIONS|TEXT_BYTES|LEVELS|TRUTH|BLANK|KIND|AND|NOT|QUESTION|ROUNDS):'
count 2d 'switches on the kind of an image' 'Some\(2\) =>|Reading::kind\(\)|of_image\('
count 3a 'loops over the numbers below a length' 'for [a-z_]+ in \(?[0-9a-z]+\.\.' 
count 3b 'loops with while' '^ *while '
count 4a 'conversions, equality and text by hand' 'fn (number\(&self|layer_number|layer\(|unary_code|is_sign|signs_of|cause_in_words|digits|(write|put)_[a-z]+|line_length|lines_length|text_length|push_(record|place|state|answers|edges|formula)|print_(state|model)|image_refused|condition_refused|refused_line|error_line)[<(]?'
count 5a 'clauses on the length of a row or the room of a table' 'length row\.(old|now) ≡ 4|vec_capacity'
count 5b 'clauses that a private value is as its maker left it' 'Standing self|Read image|Few self|string_bytes out.old\) ≤|Sound .* image'
count 6a 'fixed buffers' '\[[A-Za-z0-9:(){} ]+; [0-9]{2,}\]|\[[A-Z][A-Za-z]*; [0-9]+\]|NODES\]'
count 7a 'switches on which step to run' 'match (task|request|node\.code|self\.code|operator|opening|signs_of)'
