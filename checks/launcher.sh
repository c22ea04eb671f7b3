#!/usr/bin/env bash
# Tries ./heco with a stand-in for `rt` and four crates of nothing, of which the program stands on three. Takes seconds.
set -u
top=$(cd "$(dirname "${BASH_SOURCE[0]}")/.." && pwd) || exit 1
room=$(mktemp -d) || exit 1
trap 'rm -rf "$room"' EXIT
mkdir -p "$room/bin" "$room/checks" "$room"/crates/{low,left,right,other,heco}/src
cp "$top/heco" "$room" && cp "$top/checks/program.sh" "$room/checks" || exit 1
printf '%s\n' 'heco: left right' 'left: low' 'right: low itoa' 'low:' 'other: low' >"$room/crates.txt"
for crate in low left right other heco; do echo "// $crate" >"$room/crates/$crate/src/lib.rt"; done

# the stand-in: a library is proved where no file `broken` is in its folder, and the program ends with its first word
cat >"$room/bin/rt" <<'RT'
#!/usr/bin/env bash
echo "$*" >>"$ROOM/calls"
if [ "$1" = run ]; then
  mkdir -p out && printf '#!/bin/sh\necho ran; exit "$1"\n' >out/heco && chmod +x out/heco
  exit 2
fi
while [ -e "$ROOM/hold" ]; do sleep 0.1; done
status=0 ends=
for crate in low left right; do
  rm -rf "../$crate/out" && mkdir -p "../$crate/out/rlib"
  if [ -e "../$crate/broken" ]; then status=1; else touch "../$crate/out/rlib/stamp"; fi
  ends+="$crate: $([ -e "../$crate/broken" ] && echo 'failed (1)' || echo ok)"$'\n'
  echo "== $crate"
done
printf '== summary\n%s' "$ends"
exit "$status"
RT
chmod +x "$room/bin/rt"

failed=0
builds() {
  [ "$(grep -c '^all' "$room/calls")" = "$1" ]
}
# soon WORDS: waits until the command succeeds, at most a minute
soon() {
  local tenths=0
  until "$@" || ((++tenths > 600)); do sleep 0.1; done
}
# want NAME STATUS BUILDS TEXT: what the last call ended with, how often rt has built, and what its error stream has,
# which is empty where TEXT is
want() {
  local said
  said=$(cat "$room/err")
  if [ "$status" != "$2" ] || ! builds "$3" || [ -z "$4" ] && [ -n "$said" ] || [[ $said != *"$4"* ]]; then
    echo "launcher.sh: $1: status $status, $(grep -c '^all' "$room/calls") builds, and $said"
    failed=1
  fi
}
run() {
  (cd / && ROOM=$room PATH=$room/bin:$PATH HECO_JOBS=2 "$room/heco" "$@") >"$room/out" 2>"$room/err" </dev/null
  status=$?
}

run 3
want "the first use" 3 1 "proved 3 of 3: right, 0 min so far"
run 0
want "the second use" 0 1 ""
echo "// more" >>"$room/crates/other/src/lib.rt"
run 0
want "another crate changed" 0 1 ""
echo "// more" >>"$room/crates/left/src/lib.rt"
run 0
want "a library changed" 0 2 "building the program"
echo "// more" >>"$room/crates/low/src/lib.rt"
touch "$room/hold"
run 0 &
soon builds 3
(cd / && ROOM=$room PATH=$room/bin:$PATH "$room/heco" 4) >/dev/null 2>"$room/second" &
second=$!
soon grep -sq "waiting for another" "$room/second"
rm "$room/hold"
wait "$second"
status=$?
wait
cp "$room/second" "$room/err"
want "two at once" 4 3 "waiting for another ./heco"
echo "// more" >>"$room/crates/low/src/lib.rt" && touch "$room/crates/right/broken"
run 0
want "a crate that fails" 125 4 "the build failed in right; see"
mkdir "$room/tools"
for tool in bash awk cat dirname find flock grep mkdir nproc sed sha256sum sort xargs; do
  ln -s "$(command -v "$tool")" "$room/tools/$tool"
done
(cd / && PATH=$room/tools "$room/heco" 0) 2>"$room/err"
status=$?
want "no rt" 125 4 "rt is not on the path"

[ "$failed" = 0 ] && echo "the launcher builds once, waits its turn, and ends with 125 where it can't build"
exit "$failed"
