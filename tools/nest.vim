" Colours of a nest file for Vim, made by tools/command_papers.py.
if exists("b:current_syntax")
  finish
endif
syntax match nestComment "#.*$"
syntax match nestNumber "\<\d\+\>"
syntax keyword nestWord nest scalar memory data ramp candidate for below step while let if else
syntax keyword nestCommand seq swap skew tile par wave
syntax match nestAccess "[\[\]]"
highlight default link nestComment Comment
highlight default link nestNumber Number
highlight default link nestWord Statement
highlight default link nestCommand Function
highlight default link nestAccess Special
let b:current_syntax = "nest"
