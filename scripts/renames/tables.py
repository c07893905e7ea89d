"""What moves where, and which words get other names. A module is (crate, specs or proofs, old, new)."""
def room(name, modules):
    return [("lapi_base", "specs", m.split(">")[0], name + "." + m.split(">")[-1]) for m in modules.split()]

MODULES = (
    room("Record", "Record>Acts Below Names Operations Fragments Handlers Values Counters Refusals Jobs Packets Atomic Final Valid TaskPart Arrived Seen>WorldView")
    + room("Packet", "Form>Format Layout Parts>Fields Heads Spelling Written>PacketBytes")
    + room("Input", "Lines Tokens Rows Built Forms Reading Faults")
    + room("Output", "Commands Answers>CommandAnswers TextParts JournalText WireText ReportText PacketText TraceText")
    + room("Laws", "Headline Links ByPart>Locality Entries Receiving Sending Landing Takes>LinesTaken")
    + [
        ("lapi_laws", "proofs", "Told", "LastAck"),
        ("lapi_laws", "proofs", "Rows", "WorkedRuns"),
        ("lapi_laws", "proofs", "MoreRows", "WorkedRunsForMistakes"),
        ("lapi_laws", "proofs", "SecondLayoutRows", "WorkedRunsOfSecondLayout"),
        ("lapi_laws", "proofs", "Deeds", "EventKeys"),
        ("lapi_text", "proofs", "Told", "FaultKinds"),
        ("lapi_report", "specs", "Written", "SinkWrites"),
        ("lapi_script", "specs", "Answers", "ReaderAnswers"),
        ("lapi_task", "specs", "Does", "HasEffect"),
        ("lapi_task", "specs", "Answers", "Acknowledging"),
        ("lapi_task", "specs", "Performed", "Supported"),
    ]
)

BASE = "Rattle.lapi_base.specs."
WIRES = "Run start out least_undelivered is_number covers has_number has_ack is_sent is_delivered is_acked base is_of all_numbers some_number data_done data_clear packet_of packets fresh stale ack owed_ack sends".split()
SYMBOLS = [(BASE + "Record.Acts", BASE + "Record.Wires", WIRES)]

# (module after the move, old, new)
WORDS = [
    (BASE + "Record.Names", "done", "happened"),
    (BASE + "Record.Names", "Deed", "EventKey"),
    (BASE + "Record.Names", "deed", "key_of"),
    (BASE + "Record.Names", "deed_eq", "key_eq"),
    (BASE + "Record.TaskPart", "place_of_deed", "place_of_key"),
    (BASE + "Record.Operations", "upto", "numbers_below"),
    (BASE + "Record.Wires", "out", "numbered"),
    (BASE + "Record.Wires", "fresh", "to_send"),
    (BASE + "Record.Wires", "stale", "to_resend"),
    (BASE + "Record.Acts", "arrival", "first_delivery"),
    (BASE + "Record.Refusals", "why", "refusal_of"),
    (BASE + "Record.Refusals", "why_by", "refusal_by"),
    (BASE + "Record.WorldView", "Seen", "WorldView"),
    (BASE + "Record.WorldView", "seen_record", "view_record"),
    (BASE + "Input.Rows", "Reads", "IsInputText"),
    (BASE + "Input.Rows", "Part", "Column"),
    (BASE + "Input.Rows", "IsPart", "IsColumn"),
    (BASE + "Input.Rows", "part_text", "column_text"),
    (BASE + "Input.Faults", "Keeps", "KeepsLimit"),
    (BASE + "Output.ReportText", "row_text", "memory_row_text"),
    (BASE + "Packet.Format", "Form", "Format"),
    (BASE + "Packet.Heads", "note_of", "note_op_of"),
    ("Rattle.lapi_packet.specs.Reader", "Gives", "ReaderGives"),
    ("Rattle.lapi_tool.specs.Answered", "Gives", "CommandGives"),
    ("Rattle.lapi_task.specs.HasEffect", "Does", "HasEffect"),
    ("Rattle.lapi_task.specs.Supported", "IsPerformed", "IsSupported"),
    ("Rattle.lapi_task.specs.Steps", "IsPast", "Advances"),
    ("Rattle.lapi_task.specs.Steps", "IsPassed", "PassesWait"),
    ("Rattle.lapi_task.specs.Steps", "Suits", "MayStep"),
    ("Rattle.lapi_task.specs.Landed", "ArrivalSuits", "ArrivalMayLand"),
    ("Rattle.lapi_task.specs.Landed", "HeadSuits", "HeadMayLand"),
    ("Rattle.lapi_world.specs.Grows", "Performs", "KeepsRecord"),
    ("Rattle.lapi_world.specs.Stands", "IsPerformedLine", "IsSupportedLine"),
    ("Rattle.lapi_link.specs.Receiver", "Fits", "MayArrive"),
    ("Rattle.lapi_link.specs.Receiver", "IsBlank", "IsNewReceiver"),
    ("Rattle.lapi_link.specs.Sender", "IsFresh", "IsNewSender"),
]

# Before the words: names that the new words would clash with, in one file each.
LOCAL = [
    ("lapi_base/specs/Laws/Locality.antt", r"\bpub happened :", "pub same_events :"),
    ("lapi_parts/proofs/*", r"(?<![\w.'-])happened =", "same_events ="),
    ("lapi_parts/proofs/*", r"\.happened(?![\w'-])", ".same_events"),
    ("lapi_parts/proofs/*", r"(?<![\w.'])happened-local(?![\w'-])", "happens-local"),
    ("lapi_task/proofs/Apart.antt", r"\.happened(?![\w'-])", ".same_events"),
    ("lapi_task/specs/HasEffect.antt", r"\bpub happened :", "pub journal :"),
    ("lapi_task/proofs/*", r"(?<![\w.'-])happened = (?!λ)", "journal = "),
    ("lapi_world/proofs/*", r"\.happened(?![\w'-])", ".journal"),
    ("lapi_parts/proofs/MessageHeads.antt", r"(?<![\w.'-])numbered(?![\w'-])", "counter-small"),
    ("lapi_task/proofs/CopyLaws.antt", r"(?<![\w.'-])numbered(?![\w'-])", "spelled-fragment"),
]
# Types whose name changes wherever it stands outside comments.
TYPES = [("Why", "LineError")]
# Names of lemmas that begin with a word that gets another name.
PREFIXES = [("done-", "happened-"), ("upto-", "numbers_below-"), ("deed-", "key-"), ("out-", "numbered-")]
PREFIX_CRATES = ["lapi_base", "lapi_laws", "lapi_parts", "lapi_task", "lapi_world", "lapi_link", "lapi_reassembly", "lapi_report", "lapi_audit", "lapi_calls", "lapi_epochs", "lapi_flush", "lapi_blocks", "lapi_window", "lapi_collect", "lapi_tool"]
# Names of clauses, in these crates and in what speaks of them.
CLAUSES = [("lapi_task", "does", "effect"), ("lapi_task", "told", "kind"), ("lapi_task", "suits", "allowed")]
FILES = [
    ("crates/lapi_task/src/task/lends.rt", "crates/lapi_task/src/task/accessors.rt"),
    ("crates/lapi_world/src/kept.rt", "crates/lapi_world/src/network.rt"),
    ("crates/lapi_world/proofs/kept", "crates/lapi_world/proofs/network"),
    ("crates/lapi_world/proofs/network/Kept", "crates/lapi_world/proofs/network/Network"),
]
