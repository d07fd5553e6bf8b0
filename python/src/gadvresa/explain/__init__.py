"""Explanations of what the programs refuse: the place in the file, what is meant, and what to change.

`page` reads the lines that programs say out of docs/FORMATS.md, `case` is such a line with its file, and `instance`,
`lines` and `certificate` find it there. `script` is what tools/explain runs. The judge of a leaf is handed to it: only
tools/explain stands on the plain judges.
"""
