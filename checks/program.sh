# shellcheck shell=bash disable=SC2154
# Sourced by ./heco and .ci/run, with $top: what the program is made of, and where it is kept.
built=$top/.build

# The lines of crates.txt for the program and the crates that it stands on, the program's first.
crates() {
  awk '
    /^[a-z]/ { name = $1; sub(/:$/, "", name); line[name] = $0 }
    END {
      found[count = 1] = "heco"; seen["heco"] = 1
      for (i = 1; i <= count; i++) {
        print line[found[i]]
        words = split(line[found[i]], word, " ")
        for (j = 2; j <= words; j++)
          if (word[j] in line && !seen[word[j]]++) found[++count] = word[j]
      }
    }' "$top/crates.txt"
}

# A sum of all that the program is made from.
sources() (
  cd "$top" || exit
  mapfile -t lines < <(crates)
  names=("${lines[@]%%[: ]*}")
  {
    printf '%s\n' "${lines[@]}"
    find "${names[@]/#/crates/}" -name out -prune -o -type f \( -name '*.rt' -o -name '*.antt' \) -print0 |
      LC_ALL=C sort -z | xargs -0 sha256sum
  } | sha256sum
)

# Whether the kept program is the one of these sources.
is_kept() {
  [ -x "$built/heco" ] && [ "$1" = "$(cat "$built/sources" 2>/dev/null)" ]
}

# Keeps the program that rt has built of these sources.
keep() {
  mkdir -p "$built" && rm -f "$built/sources" &&
    cp "$top/crates/heco/out/heco" "$built/heco.new" && mv "$built/heco.new" "$built/heco" &&
    printf '%s\n' "$1" >"$built/sources"
}
