autocmd BufNewFile,BufRead *.spike setfiletype spike
