autocmd BufRead,BufNewFile *.scr set filetype=scr
" What stands beside a specification; any other file of this ending is left to others.
autocmd BufRead,BufNewFile *.assert if filereadable(expand('<afile>:p:r') . '.scr') | set filetype=scrassert | endif
autocmd BufRead,BufNewFile *.script,*.play,*.replay if filereadable(expand('<afile>:p:r') . '.scr') | set filetype=scrscript | endif
