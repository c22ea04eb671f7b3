" The tokens of heco's language. Made by editors/make.sh from the table in docs/LANGUAGE.md.
if exists('b:current_syntax')
  finish
endif

" of items that begin at one place the last counts, so what is no token stands first
syn match hecoBad /\S/
syn match hecoName /[A-Za-z_][A-Za-z0-9_]*/
syn match hecoKeyword /\%(params\|else\|for\|def\|fn\|if\)[A-Za-z0-9_]\@!/
syn match hecoStorage /\%(secret\|out\|int\|in\)[A-Za-z0-9_]\@!/
syn match hecoNumber /[0-9]\{1,10}/
syn match hecoBad /[0-9]\{11,}/
syn match hecoDelimiter /(\|)\|{\|}\|\[\|\]\|,\|;/
syn match hecoOperator /\.\.\|+=\|-=\|\*=\|=\|+\|-\|\*/
syn match hecoComment /\/\/.*/

hi def link hecoBad Error
hi def link hecoKeyword Keyword
hi def link hecoStorage StorageClass
hi def link hecoNumber Number
hi def link hecoDelimiter Delimiter
hi def link hecoOperator Operator
hi def link hecoComment Comment

let b:current_syntax = 'heco'
