" Element files and worlds of feast.
autocmd BufNewFile,BufRead *.ulam setfiletype ulam
autocmd BufNewFile,BufRead *.world setfiletype feastworld
