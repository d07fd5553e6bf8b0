"""The steps of dev/reading_list: the sentences of README on what is proved, and the clauses that say each of them.

The contract of the top call is the statement: that of `run` for planner_cli, that of `run_repair` for plan_repair, that
of `run_refine` for plan_refine. A sentence is said by some of its clauses, and these by some cases and fields of what
they cite; a step names these, and leaves the rest to later steps. `main` makes the top call, over the device of
`plan_desk/src/real.rt`, of which no contract can say what the system did; that is a step too.
"""


class Step:
    """A sentence: its title and words, where its reading begins, and what it reads in part.

    `starts` are files below crates/, each with names in it, or without any for the whole file. `parts` says of a file
    which definitions of it are read in part, and of each which fields, cases or members: none for its type alone. What
    a step leaves out a later one has to read.
    """

    def __init__(self, title, says, starts, parts=None):
        self.title = title
        self.says = says
        self.starts = starts
        self.parts = {(path, name): kept for path, names in (parts or {}).items() for name, kept in names.items()}


PROGRAMS = ["planner_cli", "plan_repair", "plan_refine"]

RUN = ("planner_cli/src/run.rt", ["run"])
WORDS = "planner_cli/specs/Words.antt"
OUTCOME = "planner_cli/specs/Outcome.antt"
ENDING = "command_frame/specs/Ending.antt"
BYTES = "command_frame/specs/Bytes.antt"
DESK = "plan_desk/src/desk.rt"
EVALUATING = "command_evaluate/specs/Evaluating.antt"
CHECKING = "command_check/specs/Checking.antt"
CHECK = "command_answers/specs/Check.antt"
SOLVING = "command_solve/specs/Solving.antt"


STEPS = [
    Step(
        "What `evaluate` answers",
        "For every instance within the stated sizes `evaluate` answers feasible (0) exactly when the rules hold, with"
        " values that enclose the weighted mean and excess risk, else it names the first broken rule (1). The status"
        " may be 7, 8 or 11 in place of these: steps 4 and 5 tell which calls failed then. That words of `evaluate` ask"
        " for it is `evaluates` of `GoesByName`, a law (`commands_go_by_name` in `planner_cli/src/laws.rt`), so no"
        " other parser has to be read.",
        [RUN, (WORDS, ["evaluate_of", "GoesByName"])],
        {
            OUTCOME: {"Outcome": ["evaluates"]},
            WORDS: {"Command": [], "command_of": [], "GoesByName": ["evaluates"]},
            ENDING: {"Behind": ["of_command"], "Answer": []},
            DESK: {"Desk": ["shows"]},
            EVALUATING: {
                "RunsEvaluate": ["behind", "allowed"],
                "BehindEvaluate": ["feasible", "infeasible"],
                "ExpectsEvaluate": ["kept_plan", "broken_plan"],
                "DueEvaluate": [],
            },
        },
    ),
    Step(
        "What an accepted certificate says",
        "Whenever `check` accepts a certificate (0), no plan that keeps the rules scores below its bound.",
        [(OUTCOME, ["Outcome"]), (WORDS, ["check_of", "GoesByName"])],
        {
            OUTCOME: {"Outcome": ["checks"]},
            WORDS: {"Command": [], "command_of": [], "GoesByName": ["checks"]},
            ENDING: {"Behind": ["of_command"], "Answer": []},
            BYTES: {"SpellsOneBy": ["spells"]},
            CHECKING: {
                "RunsCheckBy": ["behind"],
                "BehindCheck": ["accepted"],
                "ReportsAccepted": ["files", "bounds", "says"],
                "DueCheck": [],
            },
        },
    ),
    Step(
        "What `solve` writes",
        "`solve` writes only plans that keep the rules (0; with 9 and 10 none is written), and its certificates are"
        " always accepted by `check`: of the bytes that the certificate's file holds the relation of `check` says so"
        " (`accepted`), which is that of its clauses `exact` and `one`, and may be left unread.",
        [(OUTCOME, ["Outcome"]), (WORDS, ["solve_of", "GoesByName"]), (CHECKING, ["RunsCheckBy"])],
        {
            OUTCOME: {"Outcome": ["solves"]},
            WORDS: {"Command": [], "command_of": [], "GoesByName": ["solves"]},
            ENDING: {"Behind": ["of_command"]},
            CHECKING: {"RunsCheckBy": ["exact", "one"]},
            CHECK: {"AnswersCheckBy": []},
            SOLVING: {
                "RunsSolve": ["behind", "no_plan_file"],
                "BehindSolve": ["found", "nothing", "none"],
                "ReportsFound": ["inst", "reads", "answer", "plan", "bound", "keeps", "cert_held", "plan_held",
                                 "accepted"],
                "ReportsNothing": ["inst", "reads", "answer", "bound", "cert_held", "accepted"],
                "ReportsNone": ["inst", "reads", "cert", "cert_held", "accepted"],
                "DueSolve": [],
            },
        },
    ),
    Step(
        "What calls `run`, and over what",
        "`main` calls `run` with the words, over a device that reads real files and says on standard output; what each"
        " call of a device does, and that a call that fails is counted, is the contract of `Desk`, and `RealDesk` is"
        " the one that calls the system.",
        [("planner_cli/src/main.rt", []), ("plan_desk/src/real.rt", [])],
    ),
    Step(
        "Whatever else `run` says of `evaluate`",
        "Refusals with their lines; and that the bytes of the files have one answer. Runs that fail: behind 7 a call"
        " failed that opens or reads a file, behind 8 one that says the answer, and behind each other status none. 11"
        " may come whatever the files hold; behind it the line of want of memory was said.",
        [(EVALUATING, ["RunsEvaluate", "BehindEvaluate", "ExpectsEvaluate", "DueEvaluate"]), (ENDING, ["Behind"])],
    ),
    Step(
        "Whatever else it says of `check`",
        "When a certificate is valid, so that it is accepted exactly then; which leaf fails; and a plan that is best.",
        [
            (CHECKING, ["RunsCheckBy", "BehindCheck", "ReportsAccepted", "DueCheck"]),
            (CHECK, ["AnswersCheckBy"]),
            (BYTES, ["SpellsOneBy"]),
        ],
    ),
    Step(
        "Whatever else it says of `solve`",
        "How plan, bound and trail are made: the descent, the price list, the search, with what each promises.",
        [(SOLVING, ["RunsSolve", "BehindSolve", "ReportsFound", "ReportsNothing", "ReportsNone", "DueSolve"])],
    ),
    Step(
        "`replay`",
        "`RunsReplay`: [PROVED](PROVED.md#command_replay) says what it promises.",
        [("command_replay/specs/Replaying.antt", ["RunsReplay"])],
    ),
    Step(
        "`table`",
        "`RunsTable`: [PROVED](PROVED.md#command_table) says what it promises.",
        [("command_table/specs/Tabling.antt", ["RunsTable"])],
    ),
    Step(
        "`roll`",
        "`RunsRoll`: [PROVED](PROVED.md#command_roll) says what it promises.",
        [("command_roll/specs/Rolling.antt", ["RunsRoll"])],
    ),
    Step(
        "`rebound`",
        "`RunsRebound`: [PROVED](PROVED.md#command_rebound) says what it promises.",
        [("command_rebound/specs/Rebinding.antt", ["RunsRebound"])],
    ),
    Step(
        "`rehearse`",
        "`RunsRehearse`: [PROVED](PROVED.md#command_rehearse) says what it promises.",
        [("command_rehearse/specs/Rehearsing.antt", ["RunsRehearse"])],
    ),
    Step(
        "All words, and the whole of `run`",
        "Which words ask for which command, and what is said where they ask for none.",
        [
            (OUTCOME, ["Outcome"]),
            (WORDS, ["Command", "command_of", "GoesByName"]),
            ("planner_cli/src/laws.rt", ["commands_go_by_name"]),
        ],
    ),
    Step(
        "`audit`",
        "`RunsAudit`: [PROVED](PROVED.md#command_audit) says what it promises.",
        [("command_audit/specs/Auditing.antt", ["RunsAudit"])],
    ),
    Step(
        "`repair`",
        "`RunsRepair`: [PROVED](PROVED.md#command_repair) says what it promises.",
        [("command_repair/specs/Repairing.antt", ["RunsRepair"])],
    ),
    Step(
        "The whole of `run_repair`",
        "The words of the second program, and what calls `run_repair`.",
        [
            ("plan_repair/src/run.rt", ["run_repair"]),
            ("plan_repair/src/laws.rt", ["commands_go_by_name"]),
            ("plan_repair/src/main.rt", []),
        ],
    ),
    Step(
        "`check` and `rebound` of all versions",
        "The records are those of `check` and `rebound` above, `RunsCheckBy` and `RunsReboundBy`, over the kind"
        " `refined_kind`: what its texts are, which are refused, what a certificate by refined price lists claims, and"
        " what is written of it.",
        [("refined_files/specs/RefinedKind.antt", ["refined_kind"])],
    ),
    Step(
        "`bound`",
        "`RunsBound`: [PROVED](PROVED.md#command_bound) says what it promises.",
        [("command_bound/specs/Bounding.antt", ["RunsBound"])],
    ),
    Step(
        "`improve`",
        "`RunsImprove`: [PROVED](PROVED.md#command_improve) says what it promises.",
        [("command_improve/specs/Improving.antt", ["RunsImprove"])],
    ),
    Step(
        "The whole of `run_refine`",
        "The words of the third program, and what calls `run_refine`.",
        [
            ("plan_refine/src/run.rt", ["run_refine"]),
            ("plan_refine/src/laws.rt", ["commands_go_by_name"]),
            ("plan_refine/src/main.rt", []),
        ],
    ),
    Step(
        "Completeness",
        "Where the files are read and no fault rose, a run ends with a status of the command's own, or with 11: laws on"
        " what `run`, `run_repair` and `run_refine` promise.",
        [
            ("planner_cli/src/laws.rt", ["runs_are_complete"]),
            ("plan_repair/src/laws.rt", ["repairs_are_complete"]),
            ("plan_refine/src/laws.rt", ["refined_runs_are_complete"]),
        ],
    ),
]
