#!/usr/bin/env bash
# Compares the files of editors/ that are made from the table of tokens with what make.sh makes of it now.
set -u
top=$(cd "$(dirname "${BASH_SOURCE[0]}")/.." && pwd) || exit 1
made=$(mktemp -d) || exit 1
trap 'rm -rf "$made"' EXIT
"$top/editors/make.sh" "$made" || exit 1
for file in vim/syntax/heco.vim vscode/heco.tmLanguage.json; do
  diff "$top/editors/$file" "$made/$file" || { echo "editors.sh: run editors/make.sh"; exit 1; }
done
echo "the files for editors are those of the table of tokens"
