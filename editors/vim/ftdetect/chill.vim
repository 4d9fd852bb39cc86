autocmd BufNewFile,BufRead *.chill setfiletype chill
