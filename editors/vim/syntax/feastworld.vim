" Worlds of feast.
if exists('b:current_syntax')
  finish
endif
syntax case match

syntax match worldIllegal /\S/
syntax match worldNumber /\<\%(0\|[1-9]\d*\)\>/
syntax match worldState /\<\%(\x\{16}\|\x\{18}\)\>\ze *$/
syntax match worldName /\<[A-Z][A-Za-z0-9_]*\>/
syntax match worldWord /^\%(feast\|tiles\|size\|off\|seed\|attempts\|try\|atom\|order\)\>/
syntax match worldWord /\%(^order \)\@<=seed\>/
syntax match worldComment /^#.*$/

highlight default link worldIllegal Error
highlight default link worldNumber Number
highlight default link worldState Constant
highlight default link worldName Type
highlight default link worldWord Statement
highlight default link worldComment Comment

let b:current_syntax = 'feastworld'
