" Scripts of Paris instructions: lines of commands and comments.
" Made by python/tools/make-docs: don't edit.
if exists("b:current_syntax")
  finish
endif
syntax case match

syntax match parisError /^.\+$/
syntax match parisError /\%(^insert start \|^insert end \|^insert after \d\+ \|^replace \d\+ \)\@<=[^ ]\+/
syntax match parisComment /^#.*$/
syntax match parisCommand /^\%(release\|replace\|delete\|faults\|insert\|settle\|bring\|field\|input\|list\|show\|take\|set\)\%( \|$\)\@=/
syntax match parisPlace /\%(^insert \)\@<=\%(start\|after\|end\) \@=/
syntax match parisPlace /\%(^show [^ ]\+ \)\@<=\%(start$\|after \@=\|end$\)/
syntax match parisInstruction /\%(^insert start \|^insert end \|^insert after \d\+ \|^replace \d\+ \)\@<=\%(logand-context-with-test\|my-news-coordinate-1L\|reduce-with-logand-1L\|reduce-with-logior-1L\|reduce-with-logxor-1L\|spread-with-logand-1L\|spread-with-logior-1L\|spread-with-logxor-1L\|reduce-with-u-add-1L\|reduce-with-u-max-1L\|reduce-with-u-min-1L\|spread-with-u-add-1L\|spread-with-u-max-1L\|spread-with-u-min-1L\|scan-with-logand-1L\|scan-with-logior-1L\|scan-with-logxor-1L\|send-with-logand-1L\|send-with-logior-1L\|send-with-logxor-1L\|spread-with-copy-1L\|my-send-address-1L\|scan-with-u-add-1L\|scan-with-u-max-1L\|scan-with-u-min-1L\|send-with-u-add-1L\|send-with-u-max-1L\|send-with-u-min-1L\|u-move-constant-1L\|scan-with-copy-1L\|get-from-news-1L\|u-add-carry-3-1L\|u-move-always-1L\|s-multiply-3-1L\|s-subtract-3-1L\|send-to-news-1L\|u-multiply-3-1L\|u-subtract-3-1L\|u-truncate-3-1L\|invert-context\|logand-context\|logior-context\|clear-context\|s-negate-2-1L\|store-context\|load-context\|logand-3-1L\|logior-3-1L\|lognot-2-1L\|logxor-3-1L\|set-context\|clear-test\|s-add-3-1L\|s-max-3-1L\|s-min-3-1L\|store-test\|u-add-3-1L\|u-max-3-1L\|u-min-3-1L\|u-rem-3-1L\|load-test\|s-move-2L\|u-move-1L\|u-move-2L\|set-test\|s-ge-1L\|s-gt-1L\|s-le-1L\|s-lt-1L\|send-1L\|u-eq-1L\|u-ge-1L\|u-gt-1L\|u-le-1L\|u-lt-1L\|u-ne-1L\|get-1L\)\%( \|$\)\@=/
syntax match parisFlag / \@<=\a[0-9A-Za-z_-]*\.\%(overflow\|context\|carry\|test\)\%( \|$\)\@=/
syntax match parisWord / \@<=\%(exclusive\|inclusive\|downward\|upward\|none\)\%( \|$\)\@=/
syntax match parisNumber / \@<=\d\+\%(x\d\+\)*\%( \|$\)\@=/
syntax match parisError /  \+\| $\|[\t\r]/
syntax match parisCommand /^paris\%( \|$\)\@=/ contained
syntax match parisHead /\%^\%(\%(#.*\)\=\n\)*paris\%( .*\)\=$/ contains=parisError,parisComment,parisCommand,parisNumber
syntax sync minlines=200

highlight default link parisError Error
highlight default link parisComment Comment
highlight default link parisCommand Statement
highlight default link parisPlace Keyword
highlight default link parisInstruction Function
highlight default link parisFlag Identifier
highlight default link parisWord Constant
highlight default link parisNumber Number

let b:current_syntax = "paris"
