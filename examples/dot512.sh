#!/usr/bin/env bash
# The dot product of 512 numbers on the largest preset, from its source to the printed answer: prints `s = 254`, and the
# lengths of the key material and of the evaluation key. HECO may name another program than ./heco.
set -eu
cd "$(dirname "${BASH_SOURCE[0]}")"
heco=$(realpath "${HECO:-../heco}")
made=$(mktemp -d)
trap 'rm -rf "$made"' EXIT
cd "$made"
cat >source <<'SOURCE'
params q512;
fn dot(in a[512], in b[512], out s) { for i in 0..512 { s += a[i]*b[i]; } }
SOURCE
{
  echo "a = $(seq -s ' ' 1 512)"
  echo "b = $(printf '1 %.0s' {1..512})"
} >inputs
"$heco" compile source cir
"$heco" draw cir "${1:-1}" kmat emat
"$heco" exec source inputs kmat emat cir sec eva cts res
wc -c kmat eva | head -2
