"""A plan and a bound that get better, round by round, in a folder that each run goes on with.

`state` reads of which instance and slack such a folder is, and how far it came. `words` has the words of a call, `pace`
says how many turns a step gets, `afresh` which calls begin without a plan, and `joining` puts the certificates of parts
of a tree together, for which `join_script` is what tools/join runs.
"""
