" Files of ladr: by their name, or by a list or an interpretation in them.
autocmd BufRead,BufNewFile *.ladr set filetype=ladr
autocmd BufRead *.in,*.proof if search('^\s*\%(formulas\|list\|interpretation\)\s*(', 'nw') | set filetype=ladr | endif
