#!/bin/sh
# Runs the built console on hostile scripts, and compares what it prints and its status. Exits 1 if any differs.
# Run it from anywhere, after `rt run` in crates/console has built the program.
LC_ALL=C
export LC_ALL
cd "$(dirname "$0")/.." || exit 1
console=crates/console/out/console
[ -x "$console" ] || { echo "no $console: run rt run in crates/console first"; exit 1; }
mkdir -p target
dir=$(mktemp -d target/hostile.XXXXXX) || exit 1
trap 'rm -rf "$dir"' EXIT
failed=0

# $1 names the case; the script and what is expected stand in $dir/in and $dir/want.
run() {
    "$console" < "$dir/in" > "$dir/got" 2> "$dir/err"
    status=$?
    if [ "$status" -ne 0 ]; then
        echo "failed: $1: status $status"
        failed=1
    fi
    if ! cmp -s "$dir/want" "$dir/got"; then
        echo "failed: $1: another output"
        failed=1
    fi
    if [ -s "$dir/err" ]; then
        echo "failed: $1: wrote to standard error"
        failed=1
    fi
}

# $1 names the case, $2 is the script and $3 what is expected, both as formats of printf.
check() {
    printf "$2" > "$dir/in"
    printf "$3" > "$dir/want"
    run "$1"
}

# $2 repeated $1 times
repeat() {
    awk -v n="$1" -v text="$2" 'BEGIN { for (i = 0; i < n; i++) printf "%s", text }'
}

check 'an empty script' '' ''
check 'a newline alone' '\n' ''
check 'empty lines' '\n\n \n\t\n\r\n' ''
check 'no newline at the end' 'field 7\nsheet' '> field 7\nfield q 7\n> sheet\nfield q 7\n'
check 'white space at the end' 'field 7 \t\r' '> field 7\nfield q 7\n'
check 'a comment at the end' '#' ''

check 'thirty digits of a small number' 'field 000000000000000000000000000016\n' '> field 000000000000000000000000000016\nfield q 16\n'
check 'thirty digits of a large number' 'field 123456789012345678901234567890\n' '> field 123456789012345678901234567890\nnot understood\n'
check 'about 2^8' 'field 255\nfield 256\nfield 272\n' '> field 255\nrefused 2\n> field 256\nnot understood\n> field 272\nnot understood\n'
check 'about 2^32' 'field 4294967295\nfield 4294967296\nfield 4294967312\n' '> field 4294967295\nnot understood\n> field 4294967296\nnot understood\n> field 4294967312\nnot understood\n'
check 'about 2^64' 'field 18446744073709551615\nfield 18446744073709551632\n' '> field 18446744073709551615\nnot understood\n> field 18446744073709551632\nnot understood\n'
check 'digits and more' 'field 16x\nfield x16\nfield 1_6\nfield 0x10\nfield 1e1\nfield +7\nfield -7\n' '> field 16x\nnot understood\n> field x16\nnot understood\n> field 1_6\nnot understood\n> field 0x10\nnot understood\n> field 1e1\nnot understood\n> field +7\nnot understood\n> field -7\nnot understood\n'

check 'NUL bytes' '\000\nfield\000 7\nfield 7\000\nfield 7\n' '> ?\nnot understood\n> field? 7\nnot understood\n> field 7?\nnot understood\n> field 7\nfield q 7\n'
check 'bytes that are no text' '\377\376 \200\nfield 7\303\nf\303\251ld 7\n' '> ?? ?\nnot understood\n> field 7?\nnot understood\n> f??ld 7\nnot understood\n'
check 'other control bytes are no white space' 'field\0137\nfield\0147\n\033#\n\177\n' '> field?7\nnot understood\n> field?7\nnot understood\n> ?#\nnot understood\n> ?\nnot understood\n'
check 'a carriage return within a line' 'field\r7\rfield\r3\n' '> field 7 field 3\nnot understood\n'
check 'marks of a format' 'field %%s {} \\\\ "\n' '> field %%s {} \\\\ "\nnot understood\n'
check 'a number sign within a line' 'field 7 #\nfield 7#\n#field 7\n #field 7\n' '> field 7 #\nnot understood\n> field 7#\nnot understood\n'

# Every byte but the newline in one line.
awk 'BEGIN { for (b = 0; b < 256; b++) if (b != 10) printf "\\%03o", b }' > "$dir/format"
printf "$(cat "$dir/format")" > "$dir/in"
{
    printf '> ?????????'
    printf ' ??'
    printf ' ??????????????????'
    printf ' '
    awk 'BEGIN { for (b = 33; b < 127; b++) printf "%c", b; for (b = 127; b < 256; b++) printf "?"; print "" }'
    echo 'not understood'
} > "$dir/want"
run 'every byte'

{ repeat 100000 a; echo; echo 'field 3'; } > "$dir/in"
{ printf '> '; repeat 100000 a; echo; echo 'not understood'; echo '> field 3'; echo 'field q 3'; } > "$dir/want"
run 'a word of 100,000 letters'

{ printf 'field '; repeat 100000 0; echo 17; } > "$dir/in"
{ printf '> field '; repeat 100000 0; echo 17; echo 'field q 17'; } > "$dir/want"
run 'a number of 100,002 digits, nearly all 0'

{ printf 'field '; repeat 100000 9; echo; } > "$dir/in"
{ printf '> field '; repeat 100000 9; echo; echo 'not understood'; } > "$dir/want"
run 'a number of 100,000 nines'

{ printf 'sum'; repeat 50000 ' 1'; echo; } > "$dir/in"
{ printf '> sum'; repeat 50000 ' 1'; echo; echo 'not understood'; } > "$dir/want"
run '50,000 arguments'

{ repeat 100000 ' '; echo; repeat 50000 ' '; printf 'field'; repeat 50000 "	"; echo 7; } > "$dir/in"
{ echo '> field 7'; echo 'field q 7'; } > "$dir/want"
run '100,000 blanks'

{ printf '#'; repeat 100000 x; echo; } > "$dir/in"
: > "$dir/want"
run 'a comment of 100,000 letters'

{ echo 'field 16'; awk 'BEGIN { for (i = 0; i < 20000; i++) print "sum 9 6" }'; } > "$dir/in"
{ echo '> field 16'; echo 'field q 16'; awk 'BEGIN { for (i = 0; i < 20000; i++) print "> sum 9 6\n15" }'; } > "$dir/want"
run '20,000 commands'

[ "$failed" -eq 0 ] && echo 'hostile scripts: as expected'
exit "$failed"
