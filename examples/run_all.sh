#!/usr/bin/env bash
# Runs each example and compares it with its row of answers.txt: words, status, and the printed lines or the line on
# the error stream, with `; ` between lines. HECO may name another program than ./heco.
cd "$(dirname "${BASH_SOURCE[0]}")" || exit 1
heco=${HECO:-../heco}
failed=0

try() {
  local text status
  text=$("$heco" $1 2>&1 </dev/null)
  status=$?
  if [ "$status|${text//$'\n'/; }" != "$2" ]; then
    echo "heco $1: want $2, found $status|${text//$'\n'/; }"
    failed=1
  fi
}

while IFS='|' read -r words want; do
  try "$words" "$want"
done <answers.txt

# texts that are too long to be kept here
long=$(mktemp -d) || exit 1
trap 'rm -rf "$long"' EXIT
head -c 1048577 /dev/zero | tr '\0' ' ' >"$long/source"
head -c 4194305 /dev/zero | tr '\0' ' ' >"$long/inputs"
try "plain $long/source linear.in" "1|$long/source: SourceLong"
try "plain linear.he $long/inputs" "3|$long/inputs: InputLong"

[ "$failed" = 0 ] && echo "each example answers as it should"
exit "$failed"
