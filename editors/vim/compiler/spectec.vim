" `:make` has `spectec check` read the open file, and goes to the place of its refusal.
" The program is the script of the repository that this file stands in, and else the one on the PATH.
if exists('current_compiler')
    finish
endif
let current_compiler = 'spectec'

let s:script = expand('<sfile>:p:h:h:h:h') . '/spectec'
let s:program = executable(s:script) ? s:script : 'spectec'
execute 'CompilerSet makeprg=' . escape(shellescape(s:program), ' \|"') . '\ check\ %:S'
" `refused FILE:LINE:COLUMN DEFINITION ID`; what the script says on standard error is no refusal
CompilerSet errorformat=refused\ %f:%l:%c\ %m,%-Gspectec:\ %.%#
