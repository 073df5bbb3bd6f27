" Programs in SPL, and their proofs: by the ends of their names, or named `program` and `proof` and looking so.
autocmd BufNewFile,BufRead *.spl setfiletype spl
autocmd BufNewFile,BufRead *.proof setfiletype splproof
autocmd BufRead program if search('::\_s*\[', 'nw') | setfiletype spl | endif
autocmd BufRead proof if search('^\s*\(invariant\|waiting\|response\)\>', 'nw') | setfiletype splproof | endif
