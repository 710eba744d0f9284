"""The preprocessor, the check and the judge written once more, from the rules alone, for scripts to compare the program with.

Nothing here is taken from the program. Modules: `scanning` (bytes to tokens), `macros` (definitions and what calls become),
`conditions` (the value of an `#if`), `preprocessing` (files to the tokens of a unit), `commands` (words and files to what is
written); `reading` (what is refused of tokens), `trees` (their tree); `types`, `constants`, `pairs` (what holds where values of two
types meet), `expressions` (a row for each), `contexts` (how control goes through functions), `texts`, and `judging` (what the judge says
of a unit).
"""
