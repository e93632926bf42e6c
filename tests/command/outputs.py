"""What the command prints, against what it doesn't take from itself: the answers of
`replay/tables.py`, stored answers, and moments and TTLs that are worked out here by the guides."""

import calendar
import json
import os
import re
import shlex
import shutil
import time
from pathlib import Path
from unittest import mock

from keyset.rolls import ROLLS
from tests.command import page_commands, pieces, roll_pictures, testkeys
from tests.command.roll_pictures import answers, examples
from tests.command.terminal import TOP, folder, private_halves, typed
from tests.command.time_taken import lengths

# The old keys of a roll and its new one, by the roles that it rolls.
LISTS = {("ksk",): ("K1", "K2"), ("zsk",): ("Z1", "Z2"), ("ksk", "zsk"): ("K1,Z1", "C1")}
KEYS = {"K2": "add-ksk K2 - 13", "Z2": "add-zsk Z2 - 13", "C1": "add-csk C1 - 13"}
TTLS = {"ds": 300, "dnskey": 60, "zone": 120}
DELAYS = {"ds": 50, "dnskey": 5, "zone": 7}
BEGIN = 1795664900


def screens():
    """The sets and the verdict on a screen are those of the tables, after each line; and a wait is
    due when its report's TTL is over."""
    for path in (TOP / "examples" / f"{name}.script" for name in ("csk-roll", "ksk-beside-zsk")):
        lines = path.read_text().splitlines()
        for count in range(1, len(lines) + 1):
            Path("some.script").write_text("".join(f"{line}\n" for line in lines[:count]))
            replies, sets, verdict = answers(lines[:count])
            if any(it.startswith("refused") and "wait for" not in it for it in replies):
                # A line may be lost: nothing is shown from here on.
                break
            text, _ = typed(["status", "some.script"])
            wanted = [f"example.com: {verdict}"]
            wanted += [
                f"  {label:8} {' '.join(sorted(sets[kind])) or 'no key'}"
                for label, kind in zip(("DS", "DNSKEY", "signers", "zone"), sets)
            ]
            if text.splitlines()[:5] != wanted:
                yield f"{path.name}: after line {count} the screen isn't that of the tables"
            word, *fields = lines[count - 1].split(" ")
            if word.startswith("report"):
                moment = int(fields[1]) + int(fields[2])
                line = f"    then: wait{word[-1]} {fields[0]} now, from {moment} on\n"
                if line not in text:
                    yield f"{path.name}: after line {count} the screen doesn't say:{line}"


def refusals():
    """`check` finds the refused lines of each example and its broken chain, and nothing else in
    those in which all is true. After a refusal that is no early wait a line may be lost."""
    for path, lines in examples():
        stored = path.with_suffix(".answers").read_text().splitlines()
        wanted = {n for n, reply in enumerate(stored[:-2], start=2) if reply.startswith("refused")}
        lost = [n for n in sorted(wanted) if not stored[n - 2].startswith("refused: wait for")][:1]
        wanted = {n for n in wanted if n <= min(lost, default=n)}
        broken = {int(at) + 1 for at in re.findall(r"chain broken at=(\d+)", stored[-1])}
        found = json.loads(typed(["check", path, "--json"], 10**6)[0])
        refused = {one["line"] for one in found if one["text"].startswith("was refused")}
        levels = {one["line"] for one in found if one["level"] == 3}
        if (refused, levels) != (wanted, {*broken, *lost}):
            yield f"{path.name}: check says {found}"
        others = [one for one in found if one["level"] == 2 and one["line"] not in wanted]
        if others and path.name not in FALSE:
            yield f"{path.name}: check says {others}"


# Examples in which a moment falls, or keys are set by hand.
FALSE = {"false-moment.script"}


def course(roll):
    """The moments and TTLs of a roll with these TTLs and delays, by docs/RUNBOOKS.md."""
    first, second, last = ROLLS[roll].watched

    def spread(kinds):
        # After a DS set CDS leaves the zone too.
        return max((DELAYS[it] for it in kinds), default=0) + DELAYS["zone"] * ("ds" in kinds)

    def ttl(kinds):
        # A cache's seconds begin at any time.
        if roll == "algorithm-roll" and "ds" in kinds:
            return TTLS["ds"] + 1 + TTLS["dnskey"] + 1
        # CDS has the zone's TTL.
        return 1 + max(TTLS[it] for it in [*kinds, *(["zone"] if "ds" in kinds else [])])

    report1 = BEGIN + spread(first)
    wait1 = report1 + ttl(first)
    report2 = wait1 + spread(second)
    # The second wait of this roll counts from its first report.
    counts_from = report1 if roll == "zsk-double-signature-roll" else report2
    wait2 = max(report2, counts_from + ttl(second))
    return report1, ttl(first), wait1, report2, ttl(second), wait2, wait2 + spread(last)


def plans():
    """The plan of each roll has the moments, TTLs, sets and verdicts that the guides and the tables
    say; and its lines are accepted one by one by `call`."""
    first = (TOP / "examples" / "ksk-roll.script").read_text().splitlines()[:9]
    text = "".join(f"{line}\n" for line in first)
    for roll, row in ROLLS.items():
        old, new = LISTS[row.roles]
        wanted = planned(roll, old, new)
        Path("plan.script").write_text(text)
        words = ["plan", "plan.script", roll, old, new, "--first", wanted[0][1], "--start", BEGIN]
        words += ["--ttls", *TTLS.values(), "--delays", *(DELAYS[kind] for kind in TTLS)]
        steps = json.loads(typed([*words, "--json"])[0])
        if [(step["moment"], step["line"]) for step in steps] != wanted:
            yield f"{roll}: the plan has other calls"
        yield from called(roll, first, steps)
        lines = [*first, *(step["line"] for step in steps)]
        if Path("plan.script").read_text().splitlines() != lines:
            yield f"{roll}: other lines were kept"
        Path("plan.script").write_text(text)
        if typed([*words, "--script"])[0].splitlines() != lines[9:]:
            yield f"{roll}: --script prints other lines"
        yield from events(typed([*words, "--calendar"])[0], wanted)


def planned(roll, old, new):
    """The lines of a roll, each with its moment."""
    report1, ttl1, wait1, report2, ttl2, wait2, end = course(roll)
    return [
        (BEGIN, f"{KEYS[new]} 9 {BEGIN} yes"),
        (BEGIN, f"start {roll} {old} {new} {BEGIN}"),
        (report1, f"report1 {roll} {ttl1} {report1}"),
        (wait1, f"wait1 {roll} {wait1}"),
        (report2, f"report2 {roll} {ttl2} {report2}"),
        (wait2, f"wait2 {roll} {wait2}"),
        (end, f"done {roll}"),
        *((end, f"delete {key}") for key in old.split(",")),
    ]


def called(roll, first, steps):
    """Each step after these lines has the reply and the sets of the tables, and `call` accepts
    it."""
    lines = list(first)
    for step in steps:
        lines.append(step["line"])
        replies, sets, verdict = answers(lines)
        shown = {kind: set(keys) for kind, keys in step["published"].items()}
        reply = " ".join(["ok", *step["actions"]])
        if (replies[-1], sets, verdict) != (reply, shown, "chain safe"):
            yield f"{roll}: {step['line']}: the tables say {replies[-1]}, {sets}, {verdict}"
        text, status = typed(["call", "plan.script", step["line"]], step["moment"])
        if status or not text.startswith(f"{step['line']}: ok"):
            yield f"{roll}: {text}"


def events(text, wanted):
    """A calendar has an event for each call, at its moment, in lines as RFC 5545 has them."""
    lines = text.split("\r\n")
    if lines[-1] or any(len(line.encode()) > 75 or "\n" in line for line in lines):
        yield "a line of the calendar is too long, or ends otherwise"
    unfolded = text.replace("\r\n ", "").split("\r\n")
    starts = [line.partition(":")[2] for line in unfolded if line.startswith("DTSTART:")]
    says = [line.partition(":")[2] for line in unfolded if line.startswith("DESCRIPTION:")]
    found = [
        (calendar.timegm(time.strptime(start, "%Y%m%dT%H%M%SZ")), text.partition("\\n")[0])
        for start, text in zip(starts, says)
    ]
    if found != [(moment, line.replace(",", "\\,")) for moment, line in wanted]:
        yield f"the calendar has other events: {found}"


def key_file(flags, number):
    """A new key file of BIND's form, with its reference and its tag."""
    tag, data = testkeys.add(number, flags)
    name = f"Kexample.com.+013+{tag:05}.key"
    Path(name).write_text(f"example.com. IN DNSKEY {data}\n")
    Path(name).with_suffix(".private").touch()
    return name, tag


class RunbookOperator:
    """Types what docs/RUNBOOKS.md says, in a world in which servers have at once what `act`
    publishes. The parent gets its DS set by hand."""

    def __init__(self):
        self.now, self.names, self.script = 1000, {}, Path("S.script")
        lines = ["zone example.com"]
        for number, key in enumerate(("K1", "K2", "Z1", "Z2", "C1"), start=1):
            word = {"K": "add-ksk", "Z": "add-zsk", "C": "add-csk"}[key[0]]
            self.names[key], tag = key_file(256 if word == "add-zsk" else 257, number)
            lines.append(f"{word} {self.names[key]} - 13 {tag} 0 yes")
        self.script.write_text("".join(f"{line}\n" for line in lines))
        Path("S.notes").write_text("before 30 60 60\n")
        Path("up.DS").write_text("")

    def type(self, text):
        """Types a command. Gives what was wrong with it."""
        word, *line = shlex.split(re.sub(r"\b[KZC]\d\b", lambda it: self.names[it[0]], text))
        how = {"act": ["--zone-file", "zone", "--out", "signed", "--parent-server", "up"],
               "watch": ["--server", "signed", "--parent-server", "up"], "call": []}[word]
        if word == "call" and line[0].startswith("wait"):
            output, _ = typed(["status", self.script, "--json"], self.now)
            roll = line[0].split(" ")[1]
            rolls = {it["roll"]: it["not_before"] for it in json.loads(output)[0]["rolls"]}
            self.now = max(self.now, rolls[roll])
        text, status = typed([word, self.script, *how, *line, "--json"], self.now)
        self.now += 3
        output = json.loads(text)
        if word == "act" and (output["ds"] or output["cds"]):
            records = (f"example.com. 30 IN {it.split(' IN ')[1]}" for it in output["ds"])
            Path("up.DS").write_text("".join(f"{record}\n" for record in records))
        # Before CDS is out something is due.
        is_first = word == "watch" and not line and "CDS" in Path("signed").read_text()
        return [] if status == int(is_first) else [f"{word} {line}: {text}"]


def runbooks():
    """The commands of each roll and of the first keys, as docs/RUNBOOKS.md has them typed."""
    from tests.oracle.page import commands, courses

    for name in courses()["rolls"]:
        yield name, [command for time in commands(name) for command in time]


def by_the_command():
    """The runbooks by the command, word by word, bring each roll to its end."""
    (_, first), *others = runbooks()
    if [roll for roll, _ in others] != list(ROLLS):
        yield f"the runbooks have {[roll for roll, _ in others]}"
    for roll, commands in others:
        operator = RunbookOperator()
        for command in (*first, *commands):
            yield from operator.type(command)
        output, _ = typed(["status", operator.script, "--json"], operator.now)
        (zone,) = json.loads(output)
        _, sets, verdict = answers(operator.script.read_text().splitlines())
        if zone["rolls"] or verdict != "chain safe" or "CDS" in Path("signed").read_text():
            yield f"{roll} ends with {output}"
        servers = ["--server", "signed", "--parent-server", "up"]
        state, status = typed(["watch", operator.script, "--state", *servers], operator.now)
        found, level = typed(["check", operator.script], operator.now)
        if status or level or not found.endswith("\nall is well\n"):
            yield f"{roll}: the state is {state}, and check says {found}"
        old = {operator.names[key] for key in re.findall(r"delete (\w+)", " ".join(commands))}
        if not old or set().union(*sets.values()) & old:
            yield f"{roll} leaves {sets}"


def emergencies():
    """What docs/EMERGENCY.md says to type: for a lost KSK, and then its runbook from the first wait
    on; and to go unsigned, with the wait that the key set doesn't know."""
    text = (TOP / "docs" / "EMERGENCY.md").read_text()
    lost, unsigned = re.findall(r"^```text\n(vaqsider .*?)^```", text, re.MULTILINE | re.DOTALL)
    books = dict(runbooks())
    for name, block in (("lost", lost), ("unsigned", unsigned)):
        operator = RunbookOperator()
        block = re.sub(r" --for \d+", "", block).replace("TAG", "1")
        commands = re.findall(r"vaqsider (\w+) S(.*?)(?:;|$)", block, re.MULTILINE)
        after = books["ksk-double-ds-roll"][8:] if name == "lost" else []
        for command in books["The first keys"]:
            yield from operator.type(command)
        if name == "lost":
            Path(operator.names["K1"]).with_suffix(".private").unlink()
        for command in (*map("".join, commands), *after):
            operator.now += 300 if "wait2" in command else 0
            yield from operator.type(command)
        _, sets, verdict = answers(operator.script.read_text().splitlines())
        signers = {operator.names["K2"]} if name == "lost" else set()
        is_signed = "RRSIG" in Path("signed").read_text()
        if verdict != "chain safe" or sets["signers"] != signers or is_signed != bool(signers):
            yield f"EMERGENCY, {name}: it ends with {sets}, {verdict}"


def helps():
    """`--help` of each word says all that it takes; and a wrong word is refused."""
    from vaqsider import parsers

    listed = typed(["--help"])[0]
    for name in parsers.MODULES:
        word = parsers.word(name)
        shown, status = typed([name, "--help"])
        # Lines are folded anew, also after a hyphen.
        plain, parts = "".join(shown.split()), [word.about]
        for it in word.arguments:
            shape = it.metavar if isinstance(it.metavar, tuple) else [it.metavar or ""]
            parts += [f"{it.name} {' '.join(shape)}" if it.name[:2] == "--" else it.name, it.help]
        missing = [part for part in parts if "".join(part.split()) not in plain]
        if status or missing:
            yield f"{name} --help doesn't say {missing}"
        if not re.search(rf"^ +{name} +{re.escape(word.says)}$", listed, re.MULTILINE):
            yield f"--help doesn't say {name}"
    for words in ([], ["wait"], ["check"], ["plan", "S", "zsk-rol", "-", "-"]):
        if typed(words)[1] != 64:
            yield f"{words} is taken"


def clocks():
    """A report has the next whole second, and is made once the clock has reached it."""
    Path("half.script").write_text(Path("mid.script").read_text() + "wait1 zsk-roll 270\n")
    one = ["watch", "start.script", "--server", "one", "--ttl", 60, "--call"]
    rows = (
        (["call", "half.script", "report2 zsk-roll 60 now"], 280.25, "report2 zsk-roll 60 281"),
        (["call", "half.script", "wait2 zsk-roll now"], 341.75, "wait2 zsk-roll 341"),
        (one, 209.25, "report1 zsk-roll 60 210"),
    )

    def sleep(seconds):
        os.environ["VAQSIDER_NOW"] = str(float(os.environ["VAQSIDER_NOW"]) + seconds)

    with mock.patch.object(time, "sleep", sleep):
        for words, now, line in rows:
            text, _ = typed(words, now)
            kept, reached = Path(words[1]).read_text(), float(os.environ["VAQSIDER_NOW"])
            if not kept.endswith(f"{line}\n") or reached < int(line.split(" ")[-1]):
                yield f"at {now}, until {reached}: {text}"


def set_back():
    """A look that was made by a clock that is set back since then says nothing of now."""
    shutil.copy("start.script", "back.script")
    kept = {"moment": 10**6, "lines": 5, "servers": 0, "lacking": [], "broken": [],
            "until": 2 * 10**6, "renew": 19 * 10**5}
    Path("back.look").write_text(json.dumps(kept))
    for now, says, ages in ((10**6 + 9, "9 s ago", 9), (1000, "11 d 13 h ahead", 1000 - 10**6)):
        text = typed(["check", "back.script"], now)[0]
        metrics = typed(["zones", ".", "--prometheus"], now)[0]
        age = re.search(r'look_age_seconds\{[^}]*"back.script"\} (.*)', metrics)
        if says not in text or age is None or int(age[1]) != ages:
            yield f"of a look of the moment 1000000, at {now}: {text}{age}"
    wanted = Path("back.look").read_text()
    text, status = typed(["draw", "back.script", "--out", "./back.look"], 10**6)
    if status != 64 or Path("back.look").read_text() != wanted:
        yield f"draw writes over a file of the script: {text}"
    private_halves()
    for how in (["--out", "back.notes"], ["--nsec3", f"1 0 {'1' * 5000} -"]):
        text, status = typed(["act", "back.script", "--zone-file", "zone", *how], 10**6)
        if status != 64 or Path("back.notes").exists():
            yield f"act {how[0]} ends with {status}: {text}"


def damaged():
    """A signed zone in whose records a field is lost or no number is no fault of the command."""
    shutil.copy("start.script", "act.script")
    private_halves()
    act = ["act", "act.script", "--zone-file", "zone", "--out", "damaged", "--dry-run"]
    typed(act[:-1], 205)
    whole = Path("damaged").read_text()
    for old, new in ((r"RRSIG\tDNSKEY 13 .*", "RRSIG\tDNSKEY 13"), (r"(SOA\t\S+ \S+) \d+", r"\1 x"),
                     (r"(SOA\t\S+ \S+) \d+", r"\1 " + "1" * 5000), (r"\Z", "x. 1 IN NSEC3 1\n"),
                     (r"\Z", "example.com. 1 IN NSEC3PARAM 1 x\n")):
        Path("damaged").write_text(re.sub(old, new, whole, count=1))
        text, status = typed(act, 206)
        if status != 3 or Path("damaged").read_text() == whole:
            yield f"with {new[:40]} in the signed zone it ends with {status}: {text}"


def metrics():
    """What Prometheus reads has each series once."""
    text, _ = typed(["zones", ".", "--prometheus"])
    lines = text.splitlines()
    series = [line.rpartition(" ")[0] for line in lines if not line.startswith("#")]
    form = r'vaqsider_\w+\{zone="[^"]*",script="[^"]*"(,who="\w+")?\} -?\d+|# (HELP|TYPE) .*'
    if len(set(series)) != len(series) or not all(re.fullmatch(form, line) for line in lines):
        yield f"the metrics are:\n{text}"


CHECKS = (screens, refusals, plans, roll_pictures.pictures, by_the_command, emergencies, metrics,
          helps, clocks, set_back, damaged, lengths, pieces.states, pieces.reports,
          page_commands.taken, page_commands.run)


def faults():
    """What the command says otherwise than it should."""
    with folder():
        return [fault for check in CHECKS for fault in check()]
