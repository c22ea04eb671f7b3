#!/usr/bin/env bash
# A round trip on the circuit whose output is its input: material drawn from a seed, the keys, the encrypted input and
# what it decrypts to. No circuit is run: the encrypted input is the result, under the first four bytes of
# a file of results. Prints `y = 5`. HECO may name another program than ./heco.
set -eu
cd "$(dirname "${BASH_SOURCE[0]}")"
heco=${HECO:-../heco}
seed=${1:-7}
made=$(mktemp -d)
trap 'rm -rf "$made"' EXIT
"$heco" draw copy.cir "$seed" "$made/kmat" "$made/emat"
"$heco" keys copy.cir "$made/kmat" "$made/sec" "$made/eva"
"$heco" encrypt copy.cir "$made/eva" "$made/emat" copy.in "$made/cts"
{
  printf HRES
  tail -c +5 "$made/cts"
} >"$made/res"
"$heco" decrypt copy.cir "$made/sec" "$made/res"
