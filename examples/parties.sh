#!/usr/bin/env bash
# From a source to its printed answer by three parties, each in a folder of its own: the server computes, one party owns
# the key and one the data. Material is drawn from known seeds here, so this is a trial and keeps nothing secret.
# examples/parties.sh [SOURCE INPUTS]; HECO may name another program.
set -eu
here=$(cd "$(dirname "${BASH_SOURCE[0]}")" && pwd)
heco=$(realpath "${HECO:-$here/../heco}")
source=$(realpath "${1:-$here/dot8.he}")
inputs=$(realpath "${2:-$here/dot8.in}")
room=$(mktemp -d)
trap 'rm -rf "$room"' EXIT
mkdir "$room/server" "$room/key-owner" "$room/data-owner" "$room/alone"

# as PARTY WORDS: one command, in the folder of that party
as() {
  local party=$1
  shift
  echo "$party\$ heco $*"
  (cd "$room/$party" && "$heco" "$@")
}

# give PARTY FILE PARTIES: a file that travels
give() {
  local from=$1 file=$2
  shift 2
  case $file in sec | kmat | emat) echo "parties.sh: $file stays with its owner" >&2; exit 1 ;; esac
  for to in "$@"; do
    echo "$from gives $file to $to, $(stat -c %s "$room/$from/$file") bytes"
    cp "$room/$from/$file" "$room/$to"
  done
}

cp "$source" "$room/server/source"
cp "$inputs" "$room/data-owner/inputs"

as server compile source cir
give server cir key-owner data-owner

as key-owner draw cir 1 kmat emat
rm "$room/key-owner/emat"
as key-owner keys cir kmat sec eva
give key-owner eva data-owner server

as data-owner draw cir 2 kmat emat
rm "$room/data-owner/kmat"
as data-owner encrypt cir eva emat inputs cts
give data-owner cts server

as server run cir eva cts res
give server res key-owner
as key-owner decrypt cir sec res

# a file that lost its last byte on the way: it is refused, and no result is written
truncate -s -1 "$room/server/cts"
rm "$room/server/res"
status=0
as server run cir eva cts res || status=$?
[ "$status" = 3 ] && [ ! -e "$room/server/res" ]

# all in one, by somebody who has all: the same files and the same answer
cp "$source" "$room/alone/source"
cp "$inputs" "$room/alone/inputs"
cp "$room/key-owner/kmat" "$room/data-owner/emat" "$room/alone"
as alone exec source inputs kmat emat cir sec eva cts res
for file in key-owner/cir key-owner/sec key-owner/eva data-owner/cts key-owner/res; do
  cmp "$room/$file" "$room/alone/${file#*/}"
done
