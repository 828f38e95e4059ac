#!/bin/sh
# Lists the places that a pass over the forms of the code looks at, a section for each kind, with how many lines each has. What a listed
# place is, and whether it stays, is told in docs/DESIGN-PASS.md. Run it at the top of a checkout; with an argument it lists that section.
cd "$(dirname "$0")/.." 2>/dev/null
src() { find crates/*/src -name '*.rt' | sort; }
show() { # title, then the lines on standard input
    lines=$(cat)
    n=$(printf '%s' "$lines" | grep -c .)
    echo "== $1: $n"
    [ -n "$lines" ] && printf '%s\n' "$lines"
    :
}
all=${1:-every}
want() { [ "$all" = every ] || [ "$all" = "$1" ]; }

if want 1; then
    src | xargs grep -nE '^ *(pub(\([a-z]+\))? )?enum ' | show "1a enums"
    src | xargs perl -0777 -ne 'while (/fn (\w+)[^{;]*?\(([^)]*&(?:\x27\w+ )?mut [^)]*)\)\s*->\s*(Result<bool[^>]*>|bool)/gs) { print "$ARGV: $1 -> $3\n" }' | show "1b calls that change something and answer a bool"
    src | xargs grep -nE -e '-> u8\b|: u8, matches|answer: u8|-> Result<Result|-> Result<Option<Refusal' | show "1c numbers, or results in results, as answers"
    src | xargs grep -nE '^ *(pub )?(last|freed|used|len|edge|cells): ' | show "1d fields that mean something only beside another, or numbers that are one of few"
fi
if want 2; then
    src | xargs grep -ohE 'fn [a-z_0-9]+' | sort | uniq -c | awk '$1 > 1 { print $2, $3, $1 }' | show "2a names of functions that stand more than once"
    src | xargs grep -ohE '(struct|enum) [A-Z][A-Za-z]*' | sort | uniq -c | awk '$1 > 1 { print $2, $3, $1 }' | show "2b names of types that stand more than once"
    src | xargs perl -0777 -ne 'while (/struct (\w+)(?:<[^>]*>)? \{([^}]*)\}/gs) { my ($n, $b) = ($1, $2); my @f = $b =~ /^\s*(?:pub(?:\(\w+\))? )?(\w+): ([^,]+),/mg; my @p; while (@f) { my $k = shift @f; my $t = shift @f; push @p, "$k:$t" } print join(" ", sort @p), " | $n $ARGV\n" if @p }' | sort | awk -F' [|] ' '{ a[$1] = a[$1] "; " $2; c[$1]++ } END { for (k in a) if (c[k] > 1) print k a[k] }' | sort | show "2c types with the same fields"
fi
if want 3; then
    src | xargs grep -nE '^ *(while |loop |for .* in .*\.\.|for .* in \(.*\.\.)' | show "3 loops that count"
fi
if want 4; then
    src | xargs grep -nE '#\[derive\((Clone, Copy|Drop)\)\]' | show "4a types that neither compare nor print"
    src | xargs grep -nE 'fn (is_same|is_same_as|name|describe|coded|flipped|looked|refusal|told_by|kind_of|triangles_of)\b|BoxSide::new\(|push_str\(format!' | show "4b comparing, converting and printing by hand"
    src | xargs grep -nE ' as (u8|u32|i32|usize|i64|u64|i128)\b' | show "4c casts"
fi
if want 5; then
    src | xargs grep -ohE '(requires|ensures)( [a-z_0-9]+)? \{.*\}' | sed -E 's/^(requires|ensures)( [a-z_0-9]+)? //' | sort | uniq -c | awk '$1 >= 3' | sort -rn | show "5a clauses that stand three times or more"
    src | xargs perl -0777 -ne 'while (/fn (\w+)(?:<[^>]*>)?\(([^)]*)\)/gs) { my ($n, $p) = ($1, $2); $p =~ s/\s+/ /g; my @q = grep { /\S/ } split /, ?/, $p; print scalar(@q), " $n $ARGV\n" if @q >= 4 }' | sort -rn | show "5b functions of four parameters or more"
fi
if want 6; then
    src | xargs grep -nE 'mut \[[A-Z][A-Za-z]*(; [A-Z0-9a-z_]+)?\]|: \[[A-Z][A-Za-z]*; [A-Z0-9a-z_]+\]|&.a mut \[|index: u32|thin: Vec' | show "6 buffers, parallel lists, arenas"
fi
if want 7; then
    src | xargs grep -nE 'match (self|\*self|\(self|kind|skin|trial\.kind|self\.skin|line)\b|fn\(' | show "7 switches on a kind"
fi
if want 8; then
    find crates/*/proofs -name Answers.antt | sort | show "8a files of answers"
    find crates/*/proofs -name Answers.antt | xargs grep -hE '^pub [^ ]+ : goal' | show "8b answers" | head -1
    find crates/*/proofs -name '*.antt' | xargs cat | show "8c lines of proofs" | head -1
    find crates/*/specs -name '*.antt' | xargs grep -nE '\b(omega|search|grind|simp|cc)\b' | show "8d tactics in specs"
    find crates/*/specs crates/*/src -name '*.antt' -o -name '*.rt' | xargs grep -nwE 'cond|Decides|get_or|eqb|leb|ltb|AllByRecursion' | grep -v '/out/' | show "8e older words in clauses and definitions" | head -1
fi
