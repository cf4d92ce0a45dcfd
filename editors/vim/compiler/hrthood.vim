" Runs the program on the design in the buffer, by the script that writes refusals as compilers write errors.
if exists('current_compiler')
  finish
endif
let current_compiler = 'hrthood'

let s:top = fnamemodify(resolve(expand('<sfile>:p')), ':h:h:h:h')
let &l:makeprg = shellescape(s:top . '/tools/report/told_at.sh') . ' analyse %:S'
let &l:errorformat = join(['%f:%l:%c: %trror: %m', '%f:%l:%c: %tote: %m', '%f: %trror: %m', '%f: %tote: %m'], ',')
