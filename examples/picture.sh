#!/bin/sh
# Draws a circuit: examples/picture.sh CIR > circuit.svg. Inputs stand at the left, gates in columns by depth, a shape
# for each kind, outputs with their slots at the right. The number at a wire, and its colour, is how many bits its
# written noise bound is below half the modulus of ciphertexts, 2^57. With examples/picture.sh CIR SEC EVA CTS the noise
# that `measure` prints of each wire stands beside it in the same way. HECO may name another program than ./heco.
set -eu
[ $# = 1 ] || [ $# = 4 ] || { echo 'usage: examples/picture.sh CIR [SEC EVA CTS] > circuit.svg' >&2; exit 2; }
here=$(dirname "$0")
heco=${HECO:-$here/../heco}
listing=$("$heco" show "$1")
measured=
[ $# = 1 ] || measured=$("$heco" measure "$@")
{ [ -z "$measured" ] || printf '%s\n' "$measured" | sed 's/^/measured /'; printf '%s\n' "$listing"; } | LC_ALL=C awk -f "$here/picture.awk"
