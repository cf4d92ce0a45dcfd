autocmd BufRead,BufNewFile *.design setfiletype hrthood
