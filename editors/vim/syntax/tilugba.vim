" Vim syntax file for Tilugba: portfolios, payoff code and schedule files, by the tokens and the reserved words of docs/FORMATS.md.
" Copy the folders below editors/vim to ~/.vim. A file is known by its first statement, such as `portfolio 1;`, `portfolio 2;`,
" `payoff 1;` or `schedules 1;`. The words of plans are reserved nowhere, so they have the colour of names.
if exists("b:current_syntax")
  finish
endif

syntax case match

syntax keyword tilugbaDeclaration portfolio payoff amounts origin start party asset num flag in template contract code
syntax keyword tilugbaContract zero pay both scale after let none add cut
syntax keyword tilugbaChoice if within then else loop upto
syntax keyword tilugbaFunction obs model neg not min max widen round div acc
syntax keyword tilugbaMode half_even half_away floor ceil
syntax keyword tilugbaTruth true false

" The later of two patterns is taken, so a date comes before a number.
syntax match tilugbaNumber "\d\+\%(\.\d\+\)\="
syntax match tilugbaDate "\d\{4}-\d\d-\d\d\d\@!"
syntax match tilugbaName "\<[A-Za-z_][A-Za-z0-9_]*\>"
syntax match tilugbaMark "\.\.\|[<>!]=\|[-;,:=()+*<>&|]"
syntax match tilugbaComment "#.*$" contains=tilugbaTodo,@Spell
syntax keyword tilugbaTodo TODO FIXME contained

" A long contract is one line.
syntax sync minlines=1

highlight default link tilugbaDeclaration Statement
highlight default link tilugbaContract Keyword
highlight default link tilugbaChoice Conditional
highlight default link tilugbaFunction Function
highlight default link tilugbaMode Constant
highlight default link tilugbaTruth Boolean
highlight default link tilugbaNumber Number
highlight default link tilugbaDate Number
highlight default link tilugbaMark Operator
highlight default link tilugbaComment Comment
highlight default link tilugbaTodo Todo

let b:current_syntax = "tilugba"
