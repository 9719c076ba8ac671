" Made by python/tools/make-docs: don't edit.
autocmd BufRead,BufNewFile *.paris setfiletype paris
