#!/usr/bin/env bash
# Builds the programs and prints a table of their best times, in microseconds, of 1024 coefficients; the last row is the
# whole command `sample 7`. usage: bench/run.sh [ROUNDS]. It wants gcc, clang and rt, and for the columns of FLINT and NTL
# Debian's libflint-dev and libntl-dev. It is quick after a gate that passed, whose programs it takes; no gate runs it.
set -eu
rounds=${1:-20}
top=$(cd "$(dirname "$0")/.." && pwd)
work=$(mktemp -d)
trap 'rm -rf "$work"' EXIT

# The programs in C and C++, for the processor level that the gate builds for.
flags="-O3 -march=x86-64-v2"
programs="c_gcc c_clang"
cd "$top/bench/c"
gcc $flags transform.c -o "$work/c_gcc"
clang $flags transform.c -o "$work/c_clang"
if [ -e /usr/include/flint/nmod_poly.h ]; then
  gcc $flags flint.c -o "$work/flint" -lflint && programs="$programs flint"
fi
if [ -e /usr/include/NTL/lzz_pX.h ]; then
  g++ $flags ntl.cpp -o "$work/ntl" -lntl -lgmp -lm -lpthread && programs="$programs ntl"
fi

# Ours, proved and built as the gate builds it: the gate's own where nothing is newer.
ours="$top/crates/heco_speed/out/heco_speed"
if [ ! -x "$ours" ] || [ -n "$(find "$top/crates" -name out -prune -o -name '*.rt' -newer "$ours" -print -quit)" ]; then
  (cd "$top/crates/heco_speed" && rt run > "$work/built" 2>&1) || { tail -20 "$work/built" >&2; exit 1; }
fi
"$top/heco" sample 7

# All give the same numbers.
for program in $programs; do "$work/$program" check; done | sort | uniq -c
"$ours"

# Alternating rounds; the best of each.
for _ in $(seq "$rounds"); do
  for program in $programs; do "$work/$program" time 20 | sed "s/^/$program /"; done
  "$ours" 20 | sed 's/^/ours /'
  start=$(date +%s%N)
  GLIBC_TUNABLES=glibc.malloc.hugetlb=1 "$top/.build/heco" sample 7 > /dev/null
  echo "ours sample $(($(date +%s%N) - start))"
done > "$work/times"
echo "load $(cut -d' ' -f1-3 /proc/loadavg), $(sed -n 's/^model name.*: //p' /proc/cpuinfo | head -1)"
awk '
  { k = $2 " " $1; if (!(k in best) || $3 < best[k]) best[k] = $3 }
  END {
    works = split("product product_lanes product_plain tensor key_switch key_switch_bare key_switch_plain key_image sample", work, " ")
    programs = split("ours flint ntl c_gcc c_clang", program, " ")
    printf "%-18s", "microseconds"
    for (j = 1; j <= programs; j++) printf "%10s", program[j]
    print ""
    for (i = 1; i <= works; i++) {
      printf "%-18s", work[i]
      for (j = 1; j <= programs; j++) {
        k = work[i] " " program[j]
        printf "%10s", (k in best) ? sprintf("%.1f", best[k] / 1000) : ""
      }
      print ""
    }
    printf "key switch: %.2f of the C transform by gcc, %.2f of that by clang; the plain one takes %.0f times as long\n", \
      best["key_switch ours"] / best["key_switch c_gcc"], best["key_switch ours"] / best["key_switch c_clang"], \
      best["key_switch_plain ours"] / best["key_switch ours"]
  }' "$work/times"
