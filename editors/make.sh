#!/usr/bin/env bash
# Makes the Vim syntax file and the TextMate grammar from the table of tokens in docs/LANGUAGE.md, in this folder or in
# the one that is named. Run it when that table changes; checks/editors.sh compares.
# -f: a `*` of the table is no pattern of file names
set -euf
here=$(cd "$(dirname "${BASH_SOURCE[0]}")" && pwd)
to=${1:-$here}

# row KIND: the text of that row of the table
row() {
  sed -n '/^## Tokens$/,/^## Grammar$/ s/^| '"$1"' | \(.*\) |$/\1/p' "$here/../docs/LANGUAGE.md"
}

# among LIST WORDS, beside LIST WORDS: those of the words that the list has, or hasn't
among() { for it in $2; do case " $1 " in *" $it "*) echo "$it" ;; esac done; }
beside() { for it in $2; do case " $1 " in *" $it "*) ;; *) echo "$it" ;; esac done; }

# either: a pattern that fits any of these lines, longest first; of_vim, of_json: as Vim, or a text of JSON, writes it
either() { awk '{ print length, $0 }' | sort -k1,1nr -s | sed 's/^[0-9]* //; s/[].*+[(){}^$\\/]/\\&/g' | paste -sd '|'; }
of_vim() { sed 's/\\\([+(){}]\)/\1/g; s/|/\\|/g'; }
of_json() { sed 's/\\\//\//g; s/\\/\\\\/g'; }

words=$(row 'reserved words' | tr -d '`')
signs=$(row signs | tr -d '`')
digits=$(row number | sed -n 's/^1 to \([0-9]*\) digits.*/\1/p')
if [ -z "$words" ] || [ -z "$signs" ] || [ -z "$digits" ]; then
  echo "make.sh: the table of tokens in docs/LANGUAGE.md is not as it was" >&2
  exit 1
fi

storage=$(among 'in out int secret' "$words" | either)
keywords=$(beside 'in out int secret' "$words" | either)
delimiters=$(among '( ) { } [ ] , ;' "$signs" | either)
operators=$(beside '( ) { } [ ] , ;' "$signs" | either)
tail='[A-Za-z0-9_]'

mkdir -p "$to/vim/syntax" "$to/vscode"
cat >"$to/vim/syntax/heco.vim" <<VIM
" The tokens of heco's language. Made by editors/make.sh from the table in docs/LANGUAGE.md.
if exists('b:current_syntax')
  finish
endif

" of items that begin at one place the last counts, so what is no token stands first
syn match hecoBad /\S/
syn match hecoName /[A-Za-z_]$tail*/
syn match hecoKeyword /\%($(of_vim <<<"$keywords")\)$tail\@!/
syn match hecoStorage /\%($(of_vim <<<"$storage")\)$tail\@!/
syn match hecoNumber /[0-9]\{1,$digits}/
syn match hecoBad /[0-9]\{$((digits + 1)),}/
syn match hecoDelimiter /$(of_vim <<<"$delimiters")/
syn match hecoOperator /$(of_vim <<<"$operators")/
syn match hecoComment /\/\/.*/

hi def link hecoBad Error
hi def link hecoKeyword Keyword
hi def link hecoStorage StorageClass
hi def link hecoNumber Number
hi def link hecoDelimiter Delimiter
hi def link hecoOperator Operator
hi def link hecoComment Comment

let b:current_syntax = 'heco'
VIM

cat >"$to/vscode/heco.tmLanguage.json" <<JSON
{
  "comment": "The tokens of heco's language. Made by editors/make.sh from the table in docs/LANGUAGE.md.",
  "name": "heco",
  "scopeName": "source.heco",
  "fileTypes": ["he"],
  "patterns": [
    { "name": "comment.line.double-slash.heco", "match": "//.*" },
    { "name": "keyword.control.heco", "match": "(?:$keywords)(?!$tail)" },
    { "name": "storage.type.heco", "match": "(?:$storage)(?!$tail)" },
    { "name": "variable.other.heco", "match": "[A-Za-z_]$tail*" },
    { "name": "invalid.illegal.heco", "match": "[0-9]{$((digits + 1)),}" },
    { "name": "constant.numeric.heco", "match": "[0-9]{1,$digits}" },
    { "name": "keyword.operator.heco", "match": "$(of_json <<<"$operators")" },
    { "name": "punctuation.heco", "match": "$(of_json <<<"$delimiters")" },
    { "name": "invalid.illegal.heco", "match": "\\\\S" }
  ]
}
JSON
