#!/usr/bin/env bash
# Both sides on real genomes: E. coli 536, half of human chromosome X, Plasmodium falciparum.
#
#   compare/genomes.sh [FOLDER] [k=K] [letters=N]
#
# They come out of two Debian packages, fetched into FOLDER (a new scratch folder if none is named) unless
# they are there. The other words go to `compare fasta`, which is built by make compare; whole genomes at
# k = 7 take an hour, letters=2000000 some minutes.
set -euo pipefail
here=$(cd "$(dirname "$0")" && pwd)
program=$here/target/release/compare
[[ -x $program ]] || { echo "genomes: run make compare first" >&2; exit 2; }
folder=
if [[ $# -gt 0 && $1 != *=* ]]; then
  folder=$1
  shift
fi
folder=${folder:-$(mktemp -d)}
"$here/fetch.sh" "$folder"
cd "$folder"
exec "$program" fasta "$@" e_coli.fa human_x.fa plasmodium.fa
