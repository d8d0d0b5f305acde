" Comments, and :make for specifications of scr. g:scr_program is the program, scr where it is not set. Where this folder is still
" in its repository, :make calls tools/report, which tells columns and all faults; else scr check, which tells the first one.

setlocal commentstring=#\ %s
setlocal comments=:#
setlocal errorformat=%f:%l:%c:\ %trror:\ %m,%f:%l:%c:\ %tarning:\ %m,%f:%l:%c:\ %tote:\ %m,%f:\ line\ %l:\ %m
let s:report = fnamemodify(resolve(expand('<sfile>:p')), ':h:h:h:h') . '/tools/report'
if executable(s:report)
  let &l:makeprg = 'SCR=' . shellescape(get(g:, 'scr_program', 'scr')) . ' ' . shellescape(s:report) . ' --assert %:r:S.scr'
else
  let &l:makeprg = get(g:, 'scr_program', 'scr') . ' check % \| sed "s:^line:%\: &:"'
endif
let b:undo_ftplugin = 'setlocal commentstring< comments< errorformat< makeprg<'
