#!/bin/sh
# What ./roadquill does where all is well and where something is amiss: its status, what it lists, and what it says on
# standard error. It says each check that it could not make on this machine.
set -u
cd "$(dirname "$0")/.." || exit 1
. harness/machine.sh

mkdir -p build
dir=build/listing
rm -rf "$dir"
mkdir "$dir" || exit 1
corpus=crates/corpus/stdin
corpus_listed=crates/corpus/stdout
package_corpus=crates/packages/stdin
package_corpus_listed=crates/packages/stdout
# The example 4,096 times, whose listing is longer than a pipe holds.
long=$dir/long.fields
cp examples/morning.fields "$long" || exit 1
for _ in 1 2 3 4 5 6 7 8 9 10 11 12; do
    cat "$long" "$long" >"$dir/twice" && mv "$dir/twice" "$long" || exit 1
done

passed=0
wrong=0
# Of the run that ended with this status: it is the one wanted, and so is what it said, which has no control characters.
expect() { # WHAT STATUS WANTED WORDS
    said=$(cat "$dir/said")
    if [ "$2" != "$3" ] || [ "$said" != "$4" ] || [ -n "$(LC_ALL=C tr -d '\n -~' <"$dir/said")" ]; then
        say "$1: status $2, said '$said'; wanted $3, '$4'"
        wrong=$((wrong + 1))
    else
        passed=$((passed + 1))
    fi
}
same() { # WHAT FILE FILE
    if cmp -s "$2" "$3"; then passed=$((passed + 1)); else say "$1: $2 is not as $3"; wrong=$((wrong + 1)); fi
}
usage='usage: ./roadquill [--packages] FILE, or ./roadquill [--packages] < FILE'
unread='roadquill: the input cannot be read'
unwritten='roadquill: the listing cannot be written'

./roadquill --help >"$dir/help" 2>"$dir/said"
expect '--help' $? 0 ''
head -n 1 "$dir/help" >"$dir/first"
printf '%s\n' "$usage" >"$dir/usage"
same '--help' "$dir/first" "$dir/usage"
./roadquill --list 2>"$dir/said"
expect 'an unknown option' $? 2 "roadquill: there is no option --list; $usage"
./roadquill "$corpus" "$corpus" 2>"$dir/said"
expect 'two files' $? 2 "roadquill: $usage"
./roadquill --packages --list 2>"$dir/said"
expect 'an unknown option behind --packages' $? 2 "roadquill: there is no option --list; $usage"
./roadquill "$corpus" --packages 2>"$dir/said"
expect '--packages behind a file' $? 2 "roadquill: $usage"
./roadquill --packages "$package_corpus" "$package_corpus" 2>"$dir/said"
expect 'two files with --packages' $? 2 "roadquill: $usage"

# where the program has to be built first it says so, and from here on it need not
./roadquill "$corpus" >"$dir/listed" || die 'the listing was not built'
./roadquill "$corpus" >"$dir/listed" 2>"$dir/said"
expect 'a file' $? 0 ''
same 'a file' "$dir/listed" "$corpus_listed"
./roadquill <"$corpus" >"$dir/listed" 2>"$dir/said"
expect 'standard input' $? 0 ''
same 'standard input' "$dir/listed" "$corpus_listed"
(cat crates/listing/stdin; printf '\001') | ./roadquill >"$dir/listed" 2>"$dir/said"
expect 'a cut input' $? 0 ''
(cat crates/listing/stdout; echo cut) >"$dir/cut"
same 'a cut input' "$dir/listed" "$dir/cut"

# an error, a reject with a parameter, and an error with a problem in place of its error code
{
    printf '\001\000\012\353\010\317\001\005\324\001\201\362\000'
    printf '\001\000\014\354\012\317\000\325\002\001\001\362\002\205\000'
    printf '\001\000\012\353\010\317\001\005\325\001\201\362\000'
} >"$dir/failures"
printf '%s\n' 'item answer detail named other' '1 0 0 0 0' '2 0 0 0 1' '3 21 5 0 0' >"$dir/failures_listed"
./roadquill "$dir/failures" >"$dir/listed" 2>"$dir/said"
expect 'errors and rejects' $? 0 ''
same 'errors and rejects' "$dir/listed" "$dir/failures_listed"

# packages, by a program of their own, which is built first where it has to be
./roadquill --packages "$package_corpus" >"$dir/listed" || die 'the listing of packages was not built'
./roadquill --packages "$package_corpus" >"$dir/listed" 2>"$dir/said"
expect 'a file of packages' $? 0 ''
same 'a file of packages' "$dir/listed" "$package_corpus_listed"
./roadquill --packages <"$package_corpus" >"$dir/listed" 2>"$dir/said"
expect 'packages on standard input' $? 0 ''
same 'packages on standard input' "$dir/listed" "$package_corpus_listed"
./roadquill --packages examples/packages.fields >"$dir/listed" 2>"$dir/said"
expect 'the example of packages' $? 0 ''
cat >"$dir/example" <<'END'
item answer detail type components
1 0 0 226 1
 10 0 0 5 0
2 0 0 228 2
 10 0 0 1 0
 19 0 0 0 0
3 0 0 229 1
 14 0 0 0 1
4 24 14 0 0
5 13 5 0 0
6 22 8 0 0
7 23 8 0 0
END
same 'the example of packages' "$dir/listed" "$dir/example"
./roadquill --packages "$corpus" >"$dir/listed" 2>"$dir/said"
expect 'a file without packages' $? 0 ''
printf '%s\n' 'item answer detail type components' cut >"$dir/none_listed"
same 'a file without packages' "$dir/listed" "$dir/none_listed"
./roadquill --packages "$dir/none" 2>"$dir/said"
expect 'a file of packages that is not there' $? 1 "roadquill: there is no file $dir/none"
./roadquill --packages <docs 2>"$dir/said" >"$dir/listed"
expect 'a folder as standard input, with --packages' $? 1 "$unread: Is a directory"
./roadquill --packages "$package_corpus" >&- 2>"$dir/said"
expect 'standard output closed, with --packages' $? 4 "$unwritten: standard output is closed"

./roadquill "$dir/none" 2>"$dir/said"
expect 'a file that is not there' $? 1 "roadquill: there is no file $dir/none"
./roadquill docs 2>"$dir/said"
expect 'a folder' $? 1 'roadquill: docs is a folder, and no file of tagged fields'
./roadquill <docs 2>"$dir/said" >"$dir/listed"
expect 'a folder as standard input' $? 1 "$unread: Is a directory"
./roadquill <&- 2>"$dir/said"
expect 'standard input closed' $? 1 "$unread: standard input is closed"
./roadquill "$corpus" <&- 2>"$dir/said" >"$dir/listed"
expect 'a file, and standard input closed' $? 0 ''
./roadquill 0>"$dir/out" 2>"$dir/said" >"$dir/listed"
expect 'standard input open for writing' $? 1 "$unread: Bad file descriptor"
if [ "$(id -u)" = 0 ]; then
    say 'not tried as root: a file that may not be read'
else
    : >"$dir/shut"
    chmod 000 "$dir/shut"
    ./roadquill "$dir/shut" 2>"$dir/said"
    expect 'a file that may not be read' $? 1 "roadquill: $dir/shut cannot be read"
fi
if [ -r /proc/self/mem ]; then
    ./roadquill /proc/self/mem 2>"$dir/said" >"$dir/listed"
    expect 'a read that fails' $? 1 "$unread: Input/output error"
else
    say 'not tried without /proc: a read that fails'
fi

./roadquill "$corpus" >&- 2>"$dir/said"
expect 'standard output closed' $? 4 "$unwritten: standard output is closed"
./roadquill "$corpus" 1</dev/null 2>"$dir/said"
expect 'standard output open for reading' $? 4 "$unwritten: Bad file descriptor"
if [ -c /dev/full ]; then
    ./roadquill "$corpus" >/dev/full 2>"$dir/said"
    expect 'a full disk' $? 4 "$unwritten: No space left on device"
    ./roadquill --help >/dev/full 2>"$dir/said"
    expect '--help on a full disk' $? 4 'roadquill: the usage cannot be written'
else
    say 'not tried without /dev/full: a full disk'
fi
{ ./roadquill "$long" 2>"$dir/said"; echo $? >"$dir/status"; } | head -n 1 >"$dir/first"
expect 'a closed pipe' "$(cat "$dir/status")" 4 "$unwritten: Broken pipe"
head -n 1 "$corpus_listed" >"$dir/header"
same 'a closed pipe' "$dir/first" "$dir/header"
# a limit amid the listing: the last write takes a part, and the next one nothing
(ulimit -f 40 && exec ./roadquill "$long" >"$dir/listed" 2>"$dir/said")
expect 'a file as long as it may be' $? 4 "$unwritten: File too large"
./roadquill "$long" >"$dir/whole" 2>"$dir/said"
expect 'a long file' $? 0 ''
head -c "$(wc -c <"$dir/listed")" "$dir/whole" >"$dir/first"
same 'a file as long as it may be' "$dir/listed" "$dir/first"
./roadquill "$corpus" 2>&- >"$dir/listed"
status=$?
: >"$dir/said"
expect 'standard error closed' "$status" 0 ''
same 'standard error closed' "$dir/listed" "$corpus_listed"

# the program gone: it is built again, which is said, and only then
rm -f crates/listing/out/listing
./roadquill "$corpus" >"$dir/listed" 2>"$dir/built" || say 'the program was not built again'
same 'the program gone' "$dir/listed" "$corpus_listed"
sed -e 's/proved in [0-9]* s$/proved/' "$dir/built" | tail -n 1 >"$dir/said"
expect 'the program gone' 0 0 'roadquill: listing: proved'
LC_ALL=C tr -d '\n -~' <"$dir/built" >"$dir/said"
expect 'control characters while it was built' 0 0 ''
./roadquill "$corpus" >"$dir/listed" 2>"$dir/said"
expect 'the program built again' $? 0 ''

[ "$wrong" = 0 ] || die "the listing: $passed as wanted, $wrong not"
rm -rf "$dir"
say "the listing: $passed as wanted"
