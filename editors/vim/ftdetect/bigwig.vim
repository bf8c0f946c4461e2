autocmd BufNewFile,BufRead *.bigwig setfiletype bigwig
