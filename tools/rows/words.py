"""Rows of words that are in no command's grammar: they are refused, and no file is read or written."""
from __future__ import annotations

from typing import Dict

from . import texts as t
from .case import PLANNER, REFINE, REPAIR, case, refused

# A line is the words of a call, of which '' is an empty one.
OF_PLANNER = """
--help
judge I P
evaluate I
evaluate '' P
evaluate I ''
evaluate slack=0 I P P
evaluate I P S
evaluate I P slack=0.0011
evaluate I P slack=0.
evaluate I P slack=00
evaluate I P slack=0.0000000000001
evaluate I P slack=0.00x
evaluate I P slack
replay I P
replay I P ''
replay I P S slack=1
replay I P S slack=0 S
check I -
check I '' C
check '' - C
check I - ''
check I - C C
solve I P C M
solve I P 1 1
solve I P C M 1 slack=1
solve I P C M 1 slack=0 slack=0
solve I P C M 01
solve I P C M 1000001
solve I P C M 10000000000000000000000
solve I P C M -1
solve I P C M ''
solve I I C M 1
solve I P I M 1
solve I P C I 1
solve I P P M 1
solve I P C P 1
solve I P C C 1
solve I P '' M 1
table I P 1
table '' P 1 1
table I '' 1 1
table I P 1 1 slack=1
table I P 1 1 slack=0 slack=0
table I P 2 1
table I P 0 1
table I P 1 513
table I P 01 1
table I P 1 -1
table I P '' 1
roll I P 1
roll I P 1 ''
roll I P 1 O slack=0
roll I I 1 O
roll I P 1 P
roll I P 1 I
roll I P 0 O
roll I P 513 O
roll I P 01 O
rebound I C
rebound I '' O
rebound I C C
rebound I C I
rebound I C O slack=1
rehearse 7
rehearse 7 0
rehearse 7 201
rehearse 7 01
rehearse 7 1 slack=0
rehearse 07 1
rehearse -7 1
rehearse '' 1
rehearse 18446744073709551616 1
"""
OF_REPAIR = """
repair I P C O 01
repair I P C O 1000001
repair I P C O
repair I P C O 1 slack=1
repair I I C O 1
repair I P P O 1
repair I P C P 1
repair I P C C 1
repair I P C I 1
repair I P '' O 1
audit I P
audit I '' C
audit I P C slack=0 slack=0
check I P C
"""
OF_REFINE = """
check I P
check I '' C
check I - ''
check I - C slack=0 slack=0
rebound I C
rebound I C C
rebound I C I
rebound I I O
rebound I C ''
rebound I C O 1
bound I - - O
bound I - - O 01
bound I - - O 1000001
bound I - - O 1 slack=1
bound I - - O 1 part=1/1
bound I - - O 1 part=0/0
bound I - - O 1 part=0/1000001
bound I - - O 1 part=01/2
bound I - - O 1 part=1
bound I - - O 1 part=/2
bound I - - O 1 part=0/2/3
bound I - - O 1 part=0/2 part=0/2
bound I - - O 1 part=0/2 slack=0
rebound I C O part=0/1
bound I '' - O 1
bound I - - I 1
bound I I - O 1
bound I - I O 1
bound I P P O 1
bound I P C P 1
bound I P C C 1
bound I - C C 1
bound I P - P 1
improve I - O 1
improve I - O 1 01
improve I - O 1 18446744073709551616
improve I - O 1000001 1
improve I - O 1 1 slack=1
improve I - O 1 1 1
improve I '' O 1 1
improve I - '' 1 1
improve I - I 1 1
improve I P P 1 1
improve I I O 1 1
evaluate I P
"""

OF_PROGRAMS: Dict[str, str] = {PLANNER: OF_PLANNER, REPAIR: OF_REPAIR, REFINE: OF_REFINE}
FILES = {"I": t.SURE_BANDED, "P": t.APART, "C": t.OLD, "S": b"undo\n", "slack=0": t.SURE_BANDED}

CASES = [case(f"{words or 'no words'}, by {program}", FILES, refused(program, words))
         for program, texts in OF_PROGRAMS.items() for words in ["", *texts.strip().split("\n")]]
