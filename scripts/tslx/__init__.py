"""Around `tsl`: what helps at a terminal. One reader of the texts that `tsl` reads and writes, one way to call it, and one file a command.

Texts are read as Latin-1, so that a character is a byte: columns count bytes, and what is written again is what was read. The modules that
read (`tokens`, `formulas`, `specifications`, `programs`, `meanings`, `runs`, `answers`, `automata`) are given texts that `tsl` accepted or
wrote; where they meet something else they raise `Unreadable`, which says in one sentence what and where."""
