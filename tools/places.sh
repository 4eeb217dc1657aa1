#!/bin/sh
# Lists the places in src/ where code may stand in an older form than the language has today, point by point. docs/DESIGN-PASS.md says what was found and what became of it.
# usage: tools/places.sh [POINT], at the top of the repository
cd "$(dirname "$0")/.." || exit 1
S=$(ls crates/*/src/*.rt)
want=${1:-all}

show() { # show POINT TITLE PATTERN [NOT]
    [ "$want" = all ] || [ "$want" = "$1" ] || return 0
    found=$(grep -nE "$3" $S | grep -vE ':[0-9]+: *//' | grep -vE "${4:-^$}")
    echo "## $1 $2: $(printf '%s' "$found" | grep -c .)"
    [ -z "$found" ] || printf '%s\n' "$found"
}

show 1a 'refusals handed out as an Option' 'Option<Fault>'
show 1b 'numbers as results' '\) -> (u8|u16|u32|u64|usize)$'
show 1c 'enums' '^ *(pub )?enum '
show 1d 'errors wrapped again by a match' '(Err\([^)]*\)+|_) => (return )?Err\('
show 1e 'flags' '[a-z]: bool'
show 3a 'loops over a range, with a condition or a count' "^ *('[a-z]+: )?(for [a-z_]+ in [^{]*\.\.|while [^l]|while le[^t])|\+= 1;"
show 3b 'loops that take a slice apart' '^ *while let '
show 4a 'casts' '(\)|\]|[a-z0-9]) as [ui][0-9a-z]+'
show 4b 'orders by hand' '[<=] [a-z*]+ (\|\||&&) .* [<=]+ '
show 4c 'impls' '^impl.* for '
show 6a 'lists and arrays' '(Vec<[^>]*>|: &(mut )?\[[a-zA-Z0-9]+\]|\[[a-z0-9]+; [A-Z0-9]+\])' '^$'
show 7 'tables of functions, boxes, switches' 'dyn |Box<|[^_a-z]fn\(|\[fn|match (step|kind|op)'

if [ "$want" = all ] || [ "$want" = 5 ]; then
    echo '## 5a clauses that stand three times or more'
    grep -hE '^ +(requires|ensures)' $S | sed -E 's/^ +//; s/(requires|ensures)\*? [a-z_]+ \{/\1 {/' | sort | uniq -c | sort -rn | awk '$1 >= 3'
    echo '## 5b pairs of parameters that three functions or more have'
    python3 - $S <<'P'
import collections, itertools, re, sys
where = collections.defaultdict(list)
for f in sys.argv[1:]:
    for m in re.finditer(r'fn (\w+)(?:<[^(]*?>)?\(([^)]*)\)', open(f).read()):
        names = sorted(p.split(':')[0].strip() for p in m[2].split(',') if ':' in p)
        for pair in itertools.combinations(names, 2):
            where[pair].append(f.split('/')[1] + '::' + m[1])
for pair, fs in sorted(where.items(), key=lambda x: -len(x[1])):
    if len(fs) >= 3:
        print(len(fs), ', '.join(pair) + ':', ' '.join(fs))
P
fi
