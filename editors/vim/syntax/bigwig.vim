" Vim syntax file
" Language: bigwig services (docs/LANGUAGE.md)
" Copy the folders syntax and ftdetect into ~/.vim.

if exists('b:current_syntax')
  finish
endif
let s:cpo = &cpo
set cpo&vim
syntax case match
syntax sync fromstart

" A keyword may be the name of a gap, in front of `=` in a plug, and that of a field in a `receive`.
syntax match bigwigKeyword "\<\%(service\|shared\|session\)\>\%(\s*=[^=]\)\@!"
syntax match bigwigType "\<\%(html\|int\|bool\|string\|strings\)\>\%(\s*=[^=]\)\@!"
syntax match bigwigConditional "\<\%(if\|else\)\>\%(\s*=[^=]\)\@!"
syntax match bigwigRepeat "\<\%(while\|foreach\|in\)\>\%(\s*=[^=]\)\@!"
syntax match bigwigStatement "\<\%(show\|exit\)\>\%(\s*=[^=]\)\@!"
syntax match bigwigConstant "\<\%(true\|false\|none\)\>\%(\s*=[^=]\)\@!"
syntax match bigwigFunction "\<\%(text\|number\|isnumber\|count\)\>\%(\_s*(\)\@="
syntax match bigwigNumber "\<\d\+\>"
syntax match bigwigOperator "[-+*/%!=<>]\|&&\|||"
syntax region bigwigReceive matchgroup=bigwigStatement start="\<receive\>\%(\s*=[^=]\)\@!" matchgroup=NONE end="\]" contains=bigwigComment

syntax match bigwigComment "//.*$" contains=@Spell
syntax region bigwigString start=+"+ skip=+\\.+ end=+"+ end="$" keepend contains=bigwigEscape,bigwigBadEscape,bigwigOpenString
syntax match bigwigBadEscape +\\.+ contained
syntax match bigwigEscape +\\["\\n]+ contained
syntax match bigwigOpenString +[^"]$+ contained

" Between <html> and </html>: text, tags and gaps. The page around them has html, head, body and form.
syntax region bigwigTemplate matchgroup=bigwigTemplateMark start="<html>" end="</html>"
      \ contains=bigwigTag,bigwigGap,bigwigReference,bigwigBadReference,bigwigReserved
syntax region bigwigTag matchgroup=bigwigTagName start="<[a-z][a-z0-9]*" start="</[a-z][a-z0-9]*" end="/\=>" contained
      \ contains=bigwigAttribute,bigwigValue,bigwigGapOfAttribute
syntax match bigwigReserved "<\%(html\|head\|body\|form\)\>" contained
syntax match bigwigAttribute "\<[a-z][a-z0-9-]*\ze=" contained
syntax region bigwigValue start=+="+hs=s+1 end=+"+ contained contains=bigwigReference,bigwigBadReference
syntax region bigwigValue start=+='+hs=s+1 end=+'+ contained contains=bigwigReference,bigwigBadReference
syntax match bigwigGapOfAttribute "=\[\h\w*\]"hs=s+1 contained
syntax match bigwigGap "<\[\h\w*\]>" contained
syntax match bigwigBadReference "&" contained
syntax match bigwigReference "&\%(amp\|lt\|gt\|quot\);" contained

highlight default link bigwigKeyword Keyword
highlight default link bigwigType Type
highlight default link bigwigConditional Conditional
highlight default link bigwigRepeat Repeat
highlight default link bigwigStatement Statement
highlight default link bigwigConstant Constant
highlight default link bigwigFunction Function
highlight default link bigwigNumber Number
highlight default link bigwigOperator Operator
highlight default link bigwigComment Comment
highlight default link bigwigString String
highlight default link bigwigEscape SpecialChar
highlight default link bigwigBadEscape Error
highlight default link bigwigOpenString Error
highlight default link bigwigTemplateMark PreProc
highlight default link bigwigTagName Tag
highlight default link bigwigAttribute Identifier
highlight default link bigwigValue String
highlight default link bigwigGap Special
highlight default link bigwigGapOfAttribute Special
highlight default link bigwigReference SpecialChar
highlight default link bigwigBadReference Error
highlight default link bigwigReserved Error

let b:current_syntax = 'bigwig'
let &cpo = s:cpo
unlet s:cpo
