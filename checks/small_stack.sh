#!/usr/bin/env bash
# Sources as long or as deeply nested as may be, on a stack of 256 KB: what the built program, or PROGRAM, calls one
# within another doesn't grow with the source but by its levels.
set -u
top=$(cd "$(dirname "${BASH_SOURCE[0]}")/.." && pwd) || exit 1
program=$(realpath "${1:-$top/crates/heco/out/heco}") || exit 1
room=$(mktemp -d) || exit 1
trap 'rm -rf "$room"' EXIT
cd "$room" || exit 1
ulimit -s 256 || exit 1
echo "x = 5" > x.in
failed=0

# NAME WANTED: the source on standard input has this output for x = 5, and compiles.
runs() {
  cat > f.he
  if [ "$("$program" plain f.he x.in 2>&1)" != "y = $2" ] || ! "$program" compile f.he cir; then
    echo "small_stack.sh: $1 fails"
    failed=1
  fi
}

# COUNT TEXT: so many copies.
copies() {
  printf "%$1s" "" | sed "s/ /$2/g"
}

# Sixty thousand definitions, and calls of the first.
runs "a call of the first of many definitions" 5 < <(awk 'BEGIN {
  printf "params p8;"
  for (k = 0; k < 60000; k++) printf "def d%d(x)=x;", k
  print "fn f(in x, out y) { for i in 0..1000 { y = d0(x); } }"
}')

# 64 levels of parentheses, of which the call has one, 8 definitions that call one another, 7 loops within each other.
runs "a source of all levels" 5 < <(awk 'BEGIN {
  printf "params p8; def d1(x)=x;"
  for (k = 2; k < 9; k++) printf "def d%d(x)=d%d(x);", k, k - 1
  printf "fn f(in x, out y) {"
  for (k = 1; k < 8; k++) printf "for i%d in 0..1 {", k
  printf "y = "; for (k = 0; k < 63; k++) printf "("
  printf "d8(x)"; for (k = 0; k < 63; k++) printf ")"
  print "; }}}}}}} }"
}')

# A hundred thousand statements, and a sum of as many terms.
runs "many statements" 5 < <(echo "params p8; fn f(in x, out y) {"; copies 100000 "y=x;"; echo "}")
runs "a long sum" 32 < <(echo "params p8; fn f(in x, out y) { y = x"; copies 100000 "+1"; echo "; }")

[ "$failed" = 0 ] && echo "four sources at their limits run on a stack of 256 KB"
exit "$failed"
