" Prints what `:make` would find in the lines of a file: FILE:LINE:COLUMN TEXT for each that has a place.
compiler spectec
execute 'cgetfile ' . fnameescape($SPECTEC_IN)
let s:places = []
for s:entry in getqflist()
    if s:entry.valid
        call add(s:places, bufname(s:entry.bufnr) . ':' . s:entry.lnum . ':' . s:entry.col . ' ' . s:entry.text)
    endif
endfor
call writefile(s:places, $SPECTEC_OUT)
qall!
