"""The notation of files: infixes, numerals, conditionals, pairs, lists, sets and `let`, read into the program's plain text and printed from it.

`table` has what is declared, `declarations` the commands that declare it, `reader` and `types` read a quotation into a tree, and `plain` writes the tree
as the program reads it; `direct` does both at once for the commonest forms. `shown` prints a tree in notation, and `translation` reads whole commands,
with places both ways. Nothing here is trusted.
"""
