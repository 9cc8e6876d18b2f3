autocmd BufNewFile,BufRead *.remora setfiletype remora
