#!/usr/bin/env bash
# Every text that the error stream may have, as the file Lines.antt with `refusal_line` spells it, stands in
# docs/USING.md, which says what to do about it.
set -u
top=$(cd "$(dirname "${BASH_SOURCE[0]}")/.." && pwd) || exit 1
lines=$(grep -l refusal_line "$top"/crates/*/specs/Lines.antt)
count=0 failed=0
while IFS= read -r words; do
  count=$((count + 1))
  grep -qF -- "$words" "$top/docs/USING.md" || { echo "lines.sh: docs/USING.md lacks '$words'"; failed=1; }
done < <(grep -o 'codes "[^"]*"' "$lines" | sed 's/^codes "[: ]*//; s/ *\(\\n\)*"$//' | grep '[A-Za-z]' | sort -u)
[ "$count" -gt 20 ] || { echo "lines.sh: only $count texts were found"; failed=1; }
[ "$failed" = 0 ] && echo "docs/USING.md has all $count texts of the error stream"
exit "$failed"
