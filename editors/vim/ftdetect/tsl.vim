" Files of tsl: specifications and programs.
autocmd BufRead,BufNewFile *.tsl,*.program setfiletype tsl
