" Vim syntax of the scripts that uxrun runs: docs/uxrun.md and docs/calls.md.
if exists('b:current_syntax')
  finish
endif

syntax match uxComment /^#.*$/
syntax match uxExpected /^#= .*$/
syntax match uxHeader /^\(serial\|object\|proc\|off\)\>/
syntax match uxPid /^\d\+\ze / nextgroup=uxCall,uxWait skipwhite
syntax match uxCall /\(open\|create\|memfd\|eventfd\|pipe\|read\|write\|lseek\|dup\|dup2\|dupfd\|getfl\|flags\|inq\|outq\|close\|unlink\|socket\)\>/ contained
syntax match uxCall /\(pair\|bind\|listen\|connect\|accept\|shut\|getopt\|setopt\|sockname\|peername\|send\|recv\|poll\|polls\|setids\|fork\|exec\|exit\)\>/ contained
syntax match uxWait /wait\>/ contained
syntax match uxName /\<[pa]:\S*/
syntax match uxControl /\<\(x:[0-9a-f]\+\|[rc]:[0-9,]\+\)\(+[rc]:[0-9,]\+\)\?/
syntax match uxSpace /\<rights:\d\+/
syntax region uxText start=/\%( \|x:\)\@<="/ skip=/\\./ end=/"/ oneline contains=uxEscape
syntax match uxEscape /\\\(x[0-9a-f]\{2}\|[abtnvfr"\\]\)/ contained
syntax match uxKind /\<\(mem\|counter\|pipe\|fail\|stream\|dgram\|seq\)\>/

highlight default link uxComment Comment
highlight default link uxExpected SpecialComment
highlight default link uxHeader PreProc
highlight default link uxPid Number
highlight default link uxCall Function
highlight default link uxWait Statement
highlight default link uxName String
highlight default link uxControl Special
highlight default link uxSpace Special
highlight default link uxText String
highlight default link uxEscape SpecialChar
highlight default link uxKind Type

let b:current_syntax = 'ux'
