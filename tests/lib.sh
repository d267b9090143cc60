# What the tests share. A test sources it, checks, and ends with `finish`; it may be given the program to run.
set -uo pipefail
root=$(cd "$(dirname "${BASH_SOURCE[0]}")/.." && pwd) || exit 2
export LC_ALL=C
program=$(readlink -e "${1:-$root/target/driver/cisternpea}") || { echo "there is no ${1:-target/driver/cisternpea}; make check builds it"; exit 2; }
cd "$root" || exit 2
folder=$(mktemp -d) || exit 2
trap 'rm -rf "$folder"' EXIT
in=$folder/in.fa
: > "$in"
passed=0
failed=0

# Counts a check: its name, and a command that must succeed.
check() {
  local name=$1
  shift
  if "$@"; then
    passed=$((passed + 1))
  else
    failed=$((failed + 1))
    echo "failed: $name"
  fi
}

# Counts a check: its name, and two files that must be the same: what is wanted (<) and what came (>).
same() {
  cat "$2" > "$folder/same.want"
  cat "$3" > "$folder/same.got"
  check "$1" cmp -s "$folder/same.want" "$folder/same.got"
  diff -a "$folder/same.want" "$folder/same.got" | cut -c 1-200 | head -n 8
}

# Runs the program on standard input; its status, what it writes and what it says must be these.
says() {
  local want="$1/$2./${3:+cisternpea: }$3" got=0
  shift 3
  "$program" "$@" < "$in" > "$folder/out" 2> "$folder/err" || got=$?
  got="$got/$(cat "$folder/out"; echo .)/$(cat "$folder/err")"
  check "$* $(printf '\n  wanted %.300q\n  got    %.300q' "$want" "$got")" test "$got" = "$want"
}

# Runs the program on a wrong command line: it must say one line and leave standard input alone.
refuses() {
  local err=$1
  shift
  printf '>a\nACGT\n' > "$in"
  says 2 '' "$err" "$@"
  check "refused before anything is read: $*" \
    cmp -s "$in" <({ "$program" "$@" 2> /dev/null; cat; } < "$in")
}

# A file of tests/data, unpacked once.
data() {
  [[ -e $folder/$1 ]] || gzip -dc "tests/data/$1.gz" > "$folder/$1"
  echo "$folder/$1"
}

# The names of the records that were refused, with the refusals' numbers, out of what was said; \x1b and \\ are the bytes again.
refused() {
  local line
  sed -En 's/^cisternpea: (.*): refused \(([0-9]+)\):.*/\1\\trefused\\t\2/p' "$1" | while IFS= read -r line; do printf '%b\n' "$line"; done
}

finish() {
  echo "$passed passed, $failed failed"
  [[ $failed -eq 0 ]]
}
