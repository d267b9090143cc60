#!/usr/bin/env bash
# Joined tracks against bedtools (Debian's package of that name) on 200 larger pairs of lists:
# `bedtools merge` for either, `intersect` for both, `subtract` for ours outside theirs.
# The last line is `N passed, M failed`; without bedtools it says what it skipped. make compare builds the program.
set -euo pipefail
program=$(cd "$(dirname "$0")" && pwd)/target/release/compare
[[ -x $program ]] || { echo "bedtools: run make compare first" >&2; exit 2; }
seed=1 count=200
if ! command -v bedtools > /dev/null; then
  echo "skipped: $count pairs against bedtools, which is not there (apt-get install bedtools)"
  echo "0 passed, 0 failed"
  exit
fi
folder=$(mktemp -d)
trap 'rm -rf "$folder"' EXIT
"$program" tracks beds "$folder" "$seed" "$count"
export LC_ALL=C
cd "$folder"
sort -k1,1 -k2,2n ours.bed theirs.bed | bedtools merge -i - > either.bed
# It writes the parts of one of ours in any order.
bedtools intersect -a ours.bed -b theirs.bed | sort -k1,1 -k2,2n > both.bed
bedtools subtract -a ours.bed -b theirs.bed > outside.bed
bedtools --version
"$program" tracks held "$folder" "$seed" "$count"
