" `set`, and not `setfiletype`: Vim itself takes `*.spec` for another language, and has the first word.
autocmd BufRead,BufNewFile *.spec,*.spectec set filetype=spectec
