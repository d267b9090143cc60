#!/usr/bin/env bash
# Fetches real genomes into a folder, unless they are there: e_coli.fa (E. coli 536), human_x.fa (half of human
# chromosome X), plasmodium.fa (Plasmodium falciparum). They come out of two Debian packages.
#
#   compare/fetch.sh FOLDER
set -euo pipefail
mkdir -p "$1"
cd "$1"

# A FASTA file, from a package and its path there.
genome() {
  local file=$1 package=$2 path=$3
  [[ -s $file ]] && return
  compgen -G "${package}_*.deb" > /dev/null || apt-get -q download "$package" || return
  dpkg-deb --fsys-tarfile "${package}"_*.deb | tar -xO "./usr/share/doc/$path" | gunzip > "$file.part" || return
  mv "$file.part" "$file"
}

if ! { genome e_coli.fa bowtie-examples bowtie/examples/genomes/NC_008253.fna.gz &&
  genome human_x.fa smalt-examples smalt/test/data/hs37chrXtrunc.fa.gz &&
  genome plasmodium.fa smalt-examples smalt/test/data/genome_1.fa.gz; }; then
  echo "genomes: could not fetch them; apt-get update may be needed" >&2
  exit 2
fi
echo "genomes are in $1"
