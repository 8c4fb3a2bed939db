#!/usr/bin/env bash
# Lets Mono's tools (Debian's mono-utils and mono-runtime) open what the builder writes: monodis and pedump read the base
# library and a made assembly, and mono runs the made one, which is to end with 16.
set -eu
crates=$(dirname "$(readlink -f "$0")")/../crates
work=$(mktemp -d)
trap 'rm -rf "$work"' EXIT
(cd "$crates/workbench" && rt run -- reference "$work" then build 3 1 "$work/Made.exe") >/dev/null 2>&1
for file in mscorlib.dll Microsoft.SPOT.Native.dll Made.exe; do
  monodis "$work/$file" >/dev/null && echo "monodis reads $file"
  pedump "$work/$file" >/dev/null && echo "pedump reads $file"
done
status=0
mono "$work/Made.exe" || status=$?
echo "mono ends Made.exe with $status"
[[ $status == 16 ]]
