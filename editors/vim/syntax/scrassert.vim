" Vim syntax file
" Language: assertions of scr, whose conditions are those of a specification

runtime! syntax/scr.vim
