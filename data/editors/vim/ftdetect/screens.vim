" A text with a heading of a screen among its first lines.
autocmd BufRead,BufNewFile *.txt if match(getline(1, 50), '^% screen \d') >= 0 | set filetype=screens | endif
autocmd BufRead,BufNewFile *.scr set filetype=screens
