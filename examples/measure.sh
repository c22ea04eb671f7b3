#!/usr/bin/env bash
# For each set of parameters the dot product of two arrays that fill the slots: how many bytes each file has, and how
# many seconds each command takes, as rows of the two tables in docs/USING.md. HECO may name another program than ./heco.
set -u
here=$(cd "$(dirname "${BASH_SOURCE[0]}")" && pwd) || exit 1
heco=$(realpath "${HECO:-$here/../heco}")
room=$(mktemp -d) || exit 1
trap 'rm -rf "$room"' EXIT
cd "$room" || exit 1
files=(cir sec eva cts res kmat emat)
commands=("compile source cir" "draw cir 1 kmat emat" "keys cir kmat sec eva" "encrypt cir eva emat inputs cts"
  "run cir eva cts res" "decrypt cir sec res" "exec source inputs kmat emat cir sec eva cts res")

# the seconds that a command takes, or a dash where it isn't there or fails
seconds() {
  local TIMEFORMAT=%2R took
  took=$({ time "$heco" "$@" >out 2>&1; } 2>&1) && echo "$took" || echo -
}

sizes="" times=""
for row in "p8 8" "p32 32" "p64 64" "q32 32" "q512 512"; do
  read -r params slots <<<"$row"
  rm -f "${files[@]}"
  echo "params $params; fn dot(in a[$slots], in b[$slots], out s) { for i in 0..$slots { s += a[i]*b[i]; } }" >source
  for name in a b; do echo "$name =$(printf ' 1%.0s' $(seq "$slots"))"; done >inputs
  sizes+="| \`$params\` |" times+="| \`$params\` |"
  for command in "${commands[@]}"; do
    # shellcheck disable=SC2086
    times+=" $(seconds $command) |"
  done
  for file in "${files[@]}"; do sizes+=" $(stat -c %s "$file" 2>/dev/null || echo -) |"; done
  sizes+=$'\n' times+=$'\n'
done
printf '| | %s |\n' "$(printf '%s\n' "${files[@]}" | paste -sd '|' | sed 's/|/ | /g')"
printf '%s\n| | compile | draw | keys | encrypt | run | decrypt | exec |\n%s' "$sizes" "$times"
