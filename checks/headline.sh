#!/usr/bin/env bash
# Compares the list of definitions in docs/HEADLINE.md with what the clause rests on; with --write it puts it there.
set -u
top=$(cd "$(dirname "${BASH_SOURCE[0]}")/.." && pwd) && cd "$top" || exit 1
page=docs/HEADLINE.md
made=$(python3 checks/believed.py heco_exec.Laws.PrintsExecuted) || exit 1
if [ "${1:-}" = --write ]; then
  { sed '/^<!-- definitions -->$/q' "$page"; printf '%s\n' "$made" '<!-- end -->'; } >"$page.new" && mv "$page.new" "$page"
fi
diff <(sed -n '/^<!-- definitions -->$/,/^<!-- end -->$/p' "$page" | sed '1d;$d') <(printf '%s\n' "$made") ||
  { echo "headline.sh: the list in $page is not what the clause rests on: checks/headline.sh --write" >&2; exit 1; }
