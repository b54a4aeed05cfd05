" Vim syntax of bench, a workbench for strided arrays.
if exists("b:current_syntax")
  finish
endif

syntax case match
syntax match benchName "\<\h\w*\>"
syntax keyword benchMake arange array broadcast cast copy field full load reshape transpose zeros
syntax keyword benchChange del save set undo upd
syntax keyword benchAsk names print info format shares
syntax keyword benchOperation add sub mul fdiv mod and or xor shl shr div eq ne lt le gt ge neg not
syntax keyword benchReduction sum prod min max any all argmin argmax
syntax keyword benchConstant True False None
syntax match benchNumber "\%(\w\)\@<![-+]\?\d\+\>"
syntax match benchType "\%(^\|\s\)\@<=[<>|=][biuS]\d\+\>"
syntax match benchType "\%(^\|\s\)\@<=[<>=@^!]*?\ze\s"
syntax region benchRecord matchgroup=benchRecord start="\%(^\|\s\)\@<=[<>=@^!]*T{" end="}" contains=benchInner
syntax region benchInner contained matchgroup=benchInner start="T{" end="}" contains=benchInner
syntax match benchSymbol "[][=(),:]\|\.\.\."
syntax match benchEscape contained "\\x\x\x"
syntax region benchBytes start="\<b'" end="'" oneline contains=benchEscape
syntax region benchFile start=+"+ end=+"+ oneline
syntax match benchComment "^\s*#.*$"

highlight default link benchMake Function
highlight default link benchChange Statement
highlight default link benchAsk Keyword
highlight default link benchOperation Operator
highlight default link benchReduction Function
highlight default link benchConstant Constant
highlight default link benchNumber Number
highlight default link benchType Type
highlight default link benchRecord Type
highlight default link benchInner Type
highlight default link benchSymbol Delimiter
highlight default link benchEscape SpecialChar
highlight default link benchBytes String
highlight default link benchFile String
highlight default link benchComment Comment
highlight default link benchName Identifier

let b:current_syntax = "bench"
setlocal commentstring=#\ %s
