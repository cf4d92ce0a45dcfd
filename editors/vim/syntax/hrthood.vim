" Words of designs. tools/design/test_editors.mjs compares them with those of the reader.
if exists('b:current_syntax')
  finish
endif

syntax case ignore
syntax keyword hrthoodStructure design version tick priorities costs object attributes provides requires data operation thread objects implements by
syntax keyword hrthoodStatement begin end is null if then elsif else for loop exit when work put
syntax keyword hrthoodType passive active protected cyclic sporadic word
syntax keyword hrthoodConstraint aser hser pser paer
syntax keyword hrthoodAttribute period offset separation deadline thread_budget arrival_jitter
syntax keyword hrthoodCost assign test turn call finish
syntax keyword hrthoodUnit us ms s
syntax keyword hrthoodOperator and or xor not mod in out range
syntax match hrthoodNumber /\<\d[0-9_]*\>/
syntax match hrthoodComment /--.*$/ contains=hrthoodInclude,@Spell
syntax match hrthoodInclude /\(--\s*\)\@<=@\(include\|copy\)\>/ contained

highlight default link hrthoodStructure Structure
highlight default link hrthoodStatement Statement
highlight default link hrthoodType Type
highlight default link hrthoodConstraint StorageClass
highlight default link hrthoodAttribute Identifier
highlight default link hrthoodCost Identifier
highlight default link hrthoodUnit Special
highlight default link hrthoodOperator Operator
highlight default link hrthoodNumber Number
highlight default link hrthoodComment Comment
highlight default link hrthoodInclude PreProc

let b:current_syntax = 'hrthood'
