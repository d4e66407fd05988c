" Vim compiler file
" Compiler: assess check, which runs malpas on a text and says what it found, by line and column

if exists("current_compiler")
  finish
endif
let current_compiler = "malpas"

CompilerSet makeprg=assess\ check\ %:S
CompilerSet errorformat=%E%f:%l:%c:\ E%n:\ %m,
		       \%W%f:%l:%c:\ finding:\ %m,
		       \%-G%.%#
