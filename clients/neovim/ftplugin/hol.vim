" Settings of a buffer with hol-serve's commands.
if exists('b:did_ftplugin')
  finish
endif
let b:did_ftplugin = 1
setlocal signcolumn=yes commentstring=(*%s*) comments=s1:(*,mb:*,ex:*) iskeyword=@,48-57,_,' expandtab shiftwidth=2
let b:undo_ftplugin = "setlocal signcolumn< commentstring< comments< iskeyword< expandtab< shiftwidth< omnifunc< | lua require('holls').detach()"
lua require('holls').attach()
