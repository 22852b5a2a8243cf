" Element files of feast, in its subset of Ulam.
if exists('b:current_syntax')
  finish
endif
syntax case match

syntax match ulamIllegal /\S/
syntax match ulamPunctuation /[{}()\[\];:,.]/
syntax match ulamSign #[-+*/%&|^=!<>~]\|[-+*/%&|^=!<>]=\|&&\|||\|<<=\=\|>>=\=\|++\|--#
syntax match ulamName /\<[a-z_][A-Za-z0-9_]*\>/
syntax match ulamFunction /\<[a-z_][A-Za-z0-9_]*\>\ze\s*(/
syntax match ulamType /\<[A-Z][A-Za-z0-9_]*\>/
syntax match ulamNumber /\<\%(0x\x\+\|0b[01]\+\|0\|[1-9]\d*\)u\=\>/
syntax match ulamModifier /\<virtual\>\ze\s\+[A-Z]/

syntax keyword ulamBuiltIn Int Unsigned Bits Bool Unary Atom Void EventWindow Random Empty
syntax keyword ulamStructure element quark typedef constant
syntax keyword ulamInclude ulam use
syntax keyword ulamConditional if else
syntax keyword ulamRepeat while for
syntax keyword ulamStatement return break continue
syntax keyword ulamWordSign is as instanceof
syntax keyword ulamBoolean true false
syntax keyword ulamSelf self

syntax match ulamComment #//.*$#
syntax region ulamComment start=#/\*# end=#\*/#
syntax region ulamDoc start=#/\*\*/\@!# end=#\*/# contains=ulamDocWord
syntax match ulamDocWord /\\color\s\+#\x\{6}\>\|\\symbol\s\+\S\{1,3}/ contained

highlight default link ulamIllegal Error
highlight default link ulamPunctuation Delimiter
highlight default link ulamSign Operator
highlight default link ulamFunction Function
highlight default link ulamType Type
highlight default link ulamNumber Number
highlight default link ulamModifier StorageClass
highlight default link ulamBuiltIn Type
highlight default link ulamStructure Structure
highlight default link ulamInclude Include
highlight default link ulamConditional Conditional
highlight default link ulamRepeat Repeat
highlight default link ulamStatement Statement
highlight default link ulamWordSign Keyword
highlight default link ulamBoolean Boolean
highlight default link ulamSelf Constant
highlight default link ulamComment Comment
highlight default link ulamDoc Comment
highlight default link ulamDocWord Special

let b:current_syntax = 'ulam'
