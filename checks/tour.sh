#!/usr/bin/env bash
# Runs every line `$ ..` of the README's tour, the rows of examples/answers.txt and the picture of docs/, with the
# program that the gate has built, or with PROGRAM. Of a line, what stands behind two or more blanks is a remark, which
# may name its status. The lines below it are what it prints, on both streams: a line `..` stands for any lines, and `..`
# at a line's end for its rest. Files that the tour puts into /tmp go into a folder of their own.
set -u
top=$(cd "$(dirname "${BASH_SOURCE[0]}")/.." && pwd) || exit 1
export HECO=${1:-$top/crates/heco/out/heco}
[ -x "$HECO" ] || { echo "tour.sh: there is no program $HECO" >&2; exit 1; }
room=$(mktemp -d) || exit 1
trap 'rm -rf "$room"' EXIT
cd "$top" || exit 1
ran=0 failed=0 command="" status=0 wanted=""

try() {
  local found ended pattern
  [ -n "$command" ] || return
  ran=$((ran + 1))
  found=$(bash -c "${command//.\/heco/'"$HECO"'}" 2>&1 </dev/null)
  ended=$?
  pattern=$(printf '%s' "$wanted" | sed 's/[][()*?\\]/\\&/g; s/^\.\.$/*/; s/ \.\.$/ */')
  # shellcheck disable=SC2053
  if [ "$ended" != "$status" ] || [[ $found != $pattern ]]; then
    printf 'tour.sh: %s\nwanted, with status %s:\n%s\nfound, with status %s:\n%s\n' \
      "$command" "$status" "$wanted" "$ended" "$found"
    failed=1
  fi
}

while IFS= read -r line; do
  line=${line//\/tmp\//"$room"/}
  case $line in
    '$ '*)
      try
      command=${line#'$ '} status=0 wanted=""
      [[ $command =~ \ \ .*status\ ([0-9]+) ]] && status=${BASH_REMATCH[1]}
      command=${command%%  *}
      ;;
    *) wanted+=${wanted:+$'\n'}$line ;;
  esac
done < <(sed -n '/^## Tour$/,/^## [^T]/ s/^    //p' README.md)
try
[ "$ran" -gt 0 ] || failed=1
echo "$ran lines of the tour were run"
examples/run_all.sh || failed=1
examples/picture.sh examples/dot8.cir | cmp - docs/dot8.svg || failed=1
exit "$failed"
