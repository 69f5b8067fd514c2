" Prints each run of characters of the open file that has one group of colours: LINE:COLUMN GROUP TEXT.
let s:runs = []
for s:line in range(1, line('$'))
    let s:text = getline(s:line)
    let s:start = 1
    while s:start <= len(s:text)
        let s:group = synIDattr(synID(s:line, s:start, 1), 'name')
        let s:end = s:start
        while s:end < len(s:text) && synIDattr(synID(s:line, s:end + 1, 1), 'name') ==# s:group
            let s:end += 1
        endwhile
        if s:group !=# ''
            call add(s:runs, s:line . ':' . s:start . ' ' . s:group . ' ' . strpart(s:text, s:start - 1, s:end - s:start + 1))
        endif
        let s:start = s:end + 1
    endwhile
endfor
call writefile(s:runs, $SPECTEC_OUT)
qall!
