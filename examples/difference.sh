#!/usr/bin/env bash
# The squared distance of two arrays of eight, by a circuit file of version 2 that is written here byte by byte, since
# `compile` writes no difference: its listing, its keys, and its run on encrypted inputs. Then the same bytes under
# version 1, which are refused at the tag of the difference. Prints `s = 168`. HECO may name another program than ./heco.
set -eu
cd "$(dirname "${BASH_SOURCE[0]}")"
heco=$(realpath "${HECO:-../heco}")
made=$(mktemp -d)
trap 'rm -rf "$made"' EXIT
cd "$made"

# circuit VERSION: magic, version, parameters, two inputs, nine gates, one output
circuit() {
  local digits="48434952 $1 01  0002  00000001 61 0008  00000001 62 0008
    00000009
    03 00000000 00000001  04 00000002 00000002  05 00000003
    08 0001 00000004      02 00000004 00000005
    08 0002 00000006      02 00000006 00000007
    08 0004 00000008      02 00000008 00000009
    0001  00000001 73 0001  01 0000000A 0000"
  printf '%b' "$(tr -dc 0-9A-F <<<"$digits" | sed 's/../\\x&/g')"
}

circuit 02 >cir
cat >listing <<'LISTING'
params p8
in a[8]
in b[8]
2 Sub 0 1 : 9508
3 Mul 2 2 : 195946261
4 Relin 3 : 196661749
5 Turn 1 4 : 197377237
6 Add 4 5 : 394038986
7 Turn 2 6 : 394754474
8 Add 6 7 : 788793460
9 Turn 4 8 : 789508948
10 Add 8 9 : 1578302408
out s[1] = 10@0
LISTING
"$heco" show cir | diff listing -

cat >inputs <<'INPUTS'
a = 1 2 3 4 5 6 7 8
b = 8 7 6 5 4 3 2 1
INPUTS
"$heco" draw cir "${1:-1}" kmat emat
"$heco" keys cir kmat sec eva
"$heco" encrypt cir eva emat inputs cts
"$heco" run cir eva cts res
"$heco" decrypt cir sec res | tee printed
diff printed - <<<'s = 168'

circuit 01 >old
status=0
refusal=$("$heco" show old 2>&1) || status=$?
[ "$status $refusal" = '3 old: Malformed at 26' ]
