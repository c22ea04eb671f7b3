au BufRead,BufNewFile *.he setfiletype heco
