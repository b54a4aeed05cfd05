autocmd BufNewFile,BufRead *.bench setfiletype bench
