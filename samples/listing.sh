#!/usr/bin/env bash
# Prints what monodis (Debian's mono-utils) tells of the tables of assemblies, in the form of `workbench list`:
# listing.sh FILES
set -eu
rows() { monodis "--$1" "$2" 2>/dev/null | grep -cE '^ *[0-9]+: ' || true; }
count() {
  local rows
  rows=$(rows "$2" "$3")
  if ((rows > 0)); then echo "table $1: $rows"; fi
}
for file in "$@"; do
  basename "$file"
  count 00 module "$file"
  count 01 typeref "$file"
  count 02 typedef "$file"
  count 04 fields "$file"
  count 06 method "$file"
  count 08 param "$file"
  count 09 interface "$file"
  count 0a memberref "$file"
  count 0b constant "$file"
  count 0c customattr "$file"
  count 0f classlayout "$file"
  count 11 standalonesig "$file"
  count 15 propertymap "$file"
  count 17 property "$file"
  count 18 methodsem "$file"
  count 1d fieldrva "$file"
  echo "table 20: 1"
  count 23 assemblyref "$file"
  count 29 nested "$file"
  monodis --typedef "$file" | sed -nE 's/^[0-9]+: ([^ ]*) \(flist.*$/\1/p' | sed -E 's/^\(null\)$/<Module>/; s/^([^.]*)$/.\1/' | sed 's/^/type /'
  monodis --method "$file" | sed -nE "s/^[0-9]+: .* '?([^' ]+)'? ?\(.*\)  \(param.*$/method \1/p"
done
