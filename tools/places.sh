#!/bin/sh
# Counts, in the sources of a commit (HEAD if none is given), the places that a design pass looks at.
# Each line: the name of a count, the pattern, and how many lines of crates/*/src match it.
commit=${1:-HEAD}
count() {
    n=$(git grep -hE -e "$2" "$commit" -- 'crates/*/src/*.rt' 'crates/*/src/**/*.rt' | wc -l)
    printf '%-28s %5d   %s\n' "$1" "$n" "$2"
}
count 1-judges-as-options   '-> Option<Refusal>'
count 1-rewrapping-matches  '^ *(Some|Ok|Err)\(.*\) => (Some|Ok|Err)\('
count 1-sentinel-numbers    '// .*(, or 0|0 where|0 while|0 for none)'
count 1-flags               'answers whether the batch|goes_on|fn is_(long|short|plain|constant|book_word)\('
count 1-numeric-codes       'fn (cause_number|kind|row|number|place|[a-z]+_place)\('
count 2-twins               'fn (nothing_watched|no_kinds|kind_at|key_of|parameters_of|is_watched|first_failing|all_hold|each_holds|any_holds|holds_if_there|is_there_and_holds|first_free|line_end|until_zero|written|same_added|same_item|same_tally|is_first|letter_of|list_named|cells|filled)\b'
count 2-constants-said-twice '^const (LARGEST_KIND|LAST_KIND|UNWATCHED|LAST_NAME|NAMES)\b'
count 3-loops               '^ *(for |while |loop )'
count 3-counted-by-hand     '^ *(for [a-z_]+ in [0-9a-z_]+\.\.|while [a-z(])'
count 3-enumerated          '\.enumerate\(\)'
count 4-comparisons         'fn (compare|compare_[a-z]+|same|same_[a-z]+|cause_number|is_argument|is_same|is_filler)\b'
count 4-orderings           'matches!\(|Ordering::'
count 4-printing            'fn (show[a-z_]*|[a-z]+_word|table_name)\b'
count 4-words-to-cases      'fn (make_of|value_kind|reference_of)\b'
count 5-rightness           '(requires|ensures).*(Shelf\.right|SortedRight|IndexedRight|AnyRight|BookRight|SessionRight|Standing|[ {]right (self|s))'
count 5-kind-of-value       'values_by [VS]'
count 5-buffer-and-place    'place: u128'
count 5-rooms               'findings: usize'
count 6-search-by-hand      'let middle'
count 6-links-by-number     'links: &(mut Vec<u32>|\[u32\])'
count 6-buffer-and-count    'count: usize,$'
count 7-hand-made-closures  '^impl.* Rule for|^pub trait Rule'
count 7-traits-of-one-step  '^impl.* (Listing|Effect)<.* for'
printf '%-28s %5d   files below crates/*/proofs\n' 8-proof-files "$(git ls-tree -r --name-only "$commit" | grep -c '^crates/[a-z_]*/proofs/.*antt$')"
