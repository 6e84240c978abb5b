" egw.vim: a buffer of a *.egw file is its text, and saving makes what changed into events. `source` it, or put it into ~/.vim/plugin.
"
" :EgwLog shows the events, :EgwBlame who wrote what, :EgwMarks the saves by name, :EgwAt VERSION the text at one of these. What others
" bring into the file meanwhile stays: what is saved is the difference to the text that was read. g:egw_program names the program, and
" g:egw_agent the name to write under; else it is a new one for each sitting.
if exists('g:loaded_egw') | finish | endif
let g:loaded_egw = 1

let s:top = expand('<sfile>:p:h:h:h')
let s:program = get(g:, 'egw_program', executable(s:top . '/egw') ? s:top . '/egw' : 'egw')
let s:installed = fnamemodify(resolve(exepath(s:program)), ':h:h') . '/share/egw/examples'
let s:examples = isdirectory(s:top . '/examples') ? s:top . '/examples' : s:installed

" What a command prints goes into a file; 0 is the answer where its status isn't 0, and what it says is shown.
function! s:Run(words, output) abort
    let l:said = system('EGW=' . shellescape(s:program) . ' ' . join(map(copy(a:words), 'shellescape(v:val)')) . ' >' . shellescape(a:output))
    if v:shell_error
        echohl ErrorMsg | echomsg trim(l:said) | echohl None
        return 0
    endif
    return 1
endfunction

" The buffer becomes the text of the file, byte for byte; what was read is remembered.
function! s:Show(file) abort
    let l:base = tempname() . '.egw'
    let l:text = tempname()
    call writefile(readfile(a:file, 'b'), l:base, 'b')
    if !s:Run([s:program, 'cat', '--', l:base], l:text) | return 0 | endif
    let b:egw_base = l:base
    let l:lines = readfile(l:text, 'b')
    let &l:endofline = empty(l:lines) || l:lines[-1] ==# ''
    setlocal fileformat=unix fileencoding=utf-8 nofixendofline noswapfile
    silent call deletebufline('%', 1, '$')
    call setline(1, &l:endofline ? l:lines[:-2] : l:lines)
    setlocal nomodified
    return 1
endfunction

function! s:Read() abort
    let l:file = expand('<afile>:p')
    setlocal buftype=acwrite
    if filereadable(l:file) && !s:Show(l:file) | setlocal readonly nomodifiable | endif
endfunction

function! s:Write() abort
    let l:file = expand('<afile>:p')
    let l:text = tempname()
    if filereadable(l:file) && !exists('b:egw_base') | echoerr 'the file was not read: edit it anew' | return | endif
    if !filereadable(l:file) && !s:Run([s:program, 'new', '--', l:file], l:text) | return | endif
    let l:lines = getline(1, '$')
    call writefile(l:lines ==# [''] ? [] : &l:endofline ? l:lines + [''] : l:lines, l:text, 'b')
    if !exists('g:egw_agent')
        let l:name = tempname()
        if !s:Run([s:examples . '/name'], l:name) | return | endif
        let g:egw_agent = readfile(l:name)[0]
    endif
    let l:words = [s:examples . '/save', l:file, l:text, '--agent=' . g:egw_agent]
    if exists('b:egw_base') | let l:words += ['--base=' . b:egw_base] | endif
    let l:view = winsaveview()
    if s:Run(l:words, tempname()) && s:Show(l:file) | call winrestview(l:view) | endif
endfunction

function! s:List(words) abort
    let l:output = tempname()
    if !s:Run([s:program] + a:words + ['--', expand('%:p')], l:output) | return | endif
    botright new
    setlocal buftype=nofile bufhidden=wipe noswapfile
    call setline(1, readfile(l:output))
endfunction

augroup egw
    autocmd!
    autocmd BufReadCmd *.egw call s:Read()
    autocmd BufWriteCmd *.egw call s:Write()
augroup END
command! EgwLog call s:List(['log'])
command! EgwMarks call s:List(['marks'])
command! EgwBlame call s:List(['blame', '--columns', '80'])
command! -nargs=1 EgwAt call s:List(['cat', '--at', <q-args>])
