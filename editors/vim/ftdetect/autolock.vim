" Files of autolock. Vim takes files that end in .al for Perl's where nothing says otherwise.
autocmd BufRead,BufNewFile *.al,*.autolock set filetype=autolock
