" `:compiler tilugba`, and then `:make` checks the file and jumps to what is wrong, by the lines of `tilugba-desk explain`. For warnings too:
" `:make!` after `:let b:tilugba_command = 'lint'` and `:compiler tilugba`.
if exists("current_compiler")
  finish
endif
let current_compiler = "tilugba"

let s:command = get(b:, 'tilugba_command', 'explain check')
execute 'CompilerSet makeprg=tilugba-desk\ ' . escape(s:command, ' ') . '\ %:S'
" A fault has its line and column; what is said of it stands below, behind `=`.
CompilerSet errorformat=%E%f:%l:%c:\ %m,%+C\ %#%l\ \|%.%#,%+C\ %#\|%.%#,%+C\ %#=\ %.%#,%E%f:\ %m,%-G%.%#
