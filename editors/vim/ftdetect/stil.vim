autocmd BufRead,BufNewFile *.stil,*.stil.gz setfiletype stil
