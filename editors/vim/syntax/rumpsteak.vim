" Vim syntax file: documents of Rumpsteak. The grammar is in docs/language.md.
if exists('b:current_syntax')
  finish
endif

syntax case match
syntax sync fromstart

" Of two patterns that match at one place the later one counts.
syntax match rumpsteakName /\h\@<!\h\w*/
syntax match rumpsteakNumber /\w\@<!\d\+/
syntax match rumpsteakMark /[!?]/

syntax match rumpsteakKeyword /\h\@<!\%(end\|protocol\)\>/
syntax match rumpsteakKeyword /\h\@<!rec\>/ nextgroup=rumpsteakName skipwhite skipempty
syntax match rumpsteakKeyword /\h\@<!\%(machine\|table\)\>/ nextgroup=rumpsteakPeer skipwhite skipempty
syntax region rumpsteakRoles matchgroup=rumpsteakKeyword start=/\h\@<!roles\>/ matchgroup=NONE end=/\%(,\_s*\)\@<!\<protocol\>/me=s-1 contains=rumpsteakPeer,rumpsteakComment
syntax region rumpsteakDerivation matchgroup=rumpsteakKeyword start=/\h\@<!derivation\>/ matchgroup=NONE end=/}/ contains=rumpsteakOwner,rumpsteakAccount,rumpsteakRole,rumpsteakMark,rumpsteakLabel,rumpsteakSort,rumpsteakNumber,rumpsteakComment

" Words of derivations alone, and roles that no sign follows.
syntax match rumpsteakAccount /\h\@<!\%(format\|bound\|pending\|with\|above\|rank\|next\)\>/ contained
syntax match rumpsteakOwner /\%(\h\@<!derivation\_s\+\)\@<=\h\w*/ contained
syntax match rumpsteakPeer /\h\w*/ contained

syntax match rumpsteakRole /\h\@<!\h\w*\ze\_s*\%(->\|[!?]\)/
syntax match rumpsteakArrow /->/ nextgroup=rumpsteakPeer skipwhite skipempty
syntax match rumpsteakLabel /\h\@<!\h\w*\ze\_s*(/
syntax match rumpsteakSort /\%((\_s*\)\@<=\%(unit\|bool\|nat\|int\|bytes\|list\)\>/
syntax match rumpsteakComment /#.*$/

highlight default link rumpsteakComment Comment
highlight default link rumpsteakKeyword Keyword
highlight default link rumpsteakAccount Keyword
highlight default link rumpsteakSort Type
highlight default link rumpsteakRole Identifier
highlight default link rumpsteakPeer Identifier
highlight default link rumpsteakOwner Identifier
highlight default link rumpsteakLabel Function
highlight default link rumpsteakName Label
highlight default link rumpsteakNumber Number
highlight default link rumpsteakArrow Operator
highlight default link rumpsteakMark Operator

let b:current_syntax = 'rumpsteak'
