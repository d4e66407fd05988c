" Texts of malpas are known by the end of their names.
autocmd BufRead,BufNewFile *.mal set filetype=malpas
