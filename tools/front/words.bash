# Made by dev/commands --write of dev/commands.toml: change the table, and not this file.
# The words that `planner` takes, and how its runs end: the one table from which words are checked and help is printed.

# The programs, first the one that is meant where none is named.
programs=(planner_cli plan_repair plan_refine)
# A row for each command: the program that takes it, its words, what it does. A word in brackets may be left out. A word
# behind > names a file that is written, and the names of files of such a command must all differ.
commands=(
    planner_cli 'evaluate INSTANCE PLAN [slack=D]'
    'judges the plan for the instance'
    planner_cli 'replay INSTANCE PLAN SCRIPT [slack=D]'
    'changes the plan by a script, line by line'
    planner_cli 'check INSTANCE PLAN|- CERTIFICATE [slack=D]'
    'checks the certificate, and how near the plan is; - for none'
    planner_cli 'solve INSTANCE >PLAN >CERTIFICATE >TRAIL TURNS [slack=D]'
    'makes a plan, its certificate, and a trail of changes'
    planner_cli 'table INSTANCE PLAN FROM TO [slack=D]'
    'reports periods of the plan: risk, loads, runs, clashes'
    planner_cli 'roll INSTANCE PLAN PERIOD >OUT'
    'writes the instance of the rest of the year'
    planner_cli 'rebound INSTANCE CERTIFICATE >OUT [slack=D]'
    'writes what a certificate becomes where limits changed'
    planner_cli 'rehearse SEED N'
    'plans an instance of N works drawn from a number'
    plan_repair 'repair INSTANCE PLAN >CERTIFICATE >OUT TURNS [slack=D]'
    'changes few starts of a plan so that it keeps the rules'
    plan_repair 'audit INSTANCE PLAN CERTIFICATE [slack=D]'
    'checks how many starts of the plan have to change'
    plan_refine 'bound INSTANCE PLAN|- CERTIFICATE|- >OUT TURNS [slack=D] [part=K/N]'
    'makes a certificate or goes on with one; - for none'
    plan_refine 'improve INSTANCE PLAN|- >OUT TURNS SEED [slack=D]'
    'makes a better plan from the plan, or from none (-)'
)
# The commands that another program takes where their certificate begins with this text, and that program.
refined='mpcert 3'
declare -gA refining=(
    [check]=plan_refine
    [rebound]=plan_refine
)
# The commands behind which a line for people is said where standard error is a terminal, by summary.bash.
summed_up=(check solve repair bound improve)
# What those in brackets are: the word, its form, what it does.
options=(
    'slack=D'
    'slack=0(\.(0{1,3}|000[0-9]{1,9}|0010{0,9}))?'
    'widens every band by D, from 0 to 0.001, with at most 12 decimals'
    'part=K/N'
    'part=(0|[1-9][0-9]{0,5})/([1-9][0-9]{0,5}|1000000)'
    'splits the leaves of the certificate alone whose number, from 0, is K modulo N'
    '--json'
    '--json'
    'as the last word of evaluate, check, solve, repair or table: the report as one object of JSON'
    '--csv[=RUNS]'
    '--csv(=.+)?'
    'as the last word of table: a row for each period and resource; in RUNS one for each run and period'
)
# The words that are numbers: their forms, and what each one has to be.
period='[1-9][0-9]?|[1-4][0-9]{2}|50[0-9]|51[0-2]'
declare -gA forms=(
    [TURNS]='0|[1-9][0-9]{0,5}|1000000'
    [FROM]=$period
    [TO]=$period
    [PERIOD]=$period
    [SEED]='0|[1-9][0-9]{0,19}'
    [N]='[1-9][0-9]?|1[0-9]{2}|200'
)
declare -gA ranges=(
    [TURNS]='a number from 0 to 1000000'
    [FROM]='a period from 1 to 512'
    [TO]='a period from 1 to 512'
    [PERIOD]='a period from 1 to 512'
    [SEED]='a number from 0 to 18446744073709551615'
    [N]='a number from 1 to 200'
)
# What this script takes for itself.
own=(
    'explain FILE REFUSAL [INSTANCE [PLAN] [slack=D]]'
    'says what a refusal of the file means, and what to change'
    'view INSTANCE PLAN|FOLDER PAGE [other=PLAN] [certificate=FILE] [progress=FILE] [slack=D]'
    'writes a page of the plan'
    'plan INSTANCE FOLDER [minutes=M] [jobs=J] [gap=P] [WORD ..]'
    'makes a plan and a bound that get better as you watch'
    '--unproved COMMAND ..'
    'runs a command without any proof: slow, and needs no build'
    '--build [PROGRAM]'
    'builds planner_cli, or PROGRAM, for any x86-64-v2; says where'
    '--version'
    'tells the commit, the kit, and which programs stand'
    '--help'
    'prints this table'
)
# How a run ends: up to 13 with a status of the program, above 63 with one of this script.
statuses=(
    0 'done; evaluate, check: rules are kept; check, audit: valid; replay: no fault; solve, repair, improve: a plan'
    1 'the plan breaks a rule; replay, table: one on starts; roll: one on starts that are kept'
    2 'the words are not in the grammar'
    3 'the instance is refused'
    4 'the plan is refused'
    5 'the certificate is refused, or a leaf of it does not hold'
    6 'the script is refused, or a line of it fails'
    7 'a file could not be opened or read'
    8 'what was due could not be written or said'
    9 'solve, repair, improve, plan: no plan was found so far'
    10 'solve, repair, bound, improve, plan: no plan keeps every rule'
    11 'memory ran out'
    12 'roll, rebound, bound: the text to be written is too long'
    13 'the system refused to give the words'
    64 'words of this script itself are wrong'
    65 'explain: no such line, or the file has not what it says; view, --json, --csv: no report; FOLDER is of others'
    66 'a file of the repository, or of the package, is missing; explain, view, plan: a file cannot be read'
    67 'an output is another file of the call, under another name'
    69 'a tool is missing: rt, python3, readlink, or parallel for hosts'
    70 'the build failed; --unproved: rt gave no answer; explain: docs/FORMATS.md is missing, or not as it reads it'
    71 'the program was built but cannot be started'
    72 'an output cannot be written: its folder is missing, or may not be written to'
    73 'a folder of the repository cannot be written or read'
    74 'the disk is full, or what this script itself has to say could not be written'
    75 'plan: another run has FOLDER'
    127 'the processor lacks a feature that the program was built for; what --build builds needs x86-64-v2 alone'
    128+n 'signal n ended the run; plan: 137 if the last check took longer than its time'
)
