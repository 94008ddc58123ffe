" Files of hol-serve's commands.
autocmd BufRead,BufNewFile *.hol setfiletype hol
