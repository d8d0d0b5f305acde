" Assertions are checked with their specification.

runtime! ftplugin/scr.vim
