"""What a caller relies on, over the library that `make lib` has made, or over the program."""

import inspect
import json
import os
import tempfile
import threading
import typing
import unittest
from pathlib import Path

import keyset
from keyset import (
    Accepted,
    Action,
    Damaged,
    Due,
    KeySet,
    Locked,
    Malformed,
    Notes,
    NotSaid,
    Refusal,
    Refused,
    RollType,
    Session,
    Todo,
    Torn,
    Wait,
    WrongArgument,
    open_session,
)
from keyset import members
from keyset.notes import Seen
from keyset.session import fault

FIRST = [
    "add-ksk K1 - 13 0 0 yes",
    "add-zsk Z1 - 13 1 0 yes",
    "start algorithm-roll - K1,Z1 0",
    "report1 algorithm-roll 3600 100",
    "wait1 algorithm-roll 3700",
]
ROLL = RollType.ALGORITHM_ROLL
POLICY = "policy 13 ksk-roll zsk-roll\nzsk-lifetime 7776000\n"


def after(lines):
    keys = KeySet("example.com")
    for line in lines:
        keys.call(line)
    return keys


class CallTests(unittest.TestCase):
    def test_a_roll_goes_on_after_a_crash(self):
        keys = KeySet.resume(after(FIRST[:4]).script + "wait1 algorithm-roll 37")
        self.assertEqual(keys.actions(ROLL), [])
        self.assertEqual(keys.wait_end(ROLL), 3700)
        self.assertEqual(keys.rolls()[ROLL].waits_for, "caches")
        asked = keys.cache_expired1(ROLL, 3700)
        self.assertIn(Action.UPDATE_DS_RRSET, asked)
        self.assertEqual(keys.actions(ROLL), asked)
        self.assertEqual(keys.published.ds, ["K1"])
        self.assertIsNone(keys.verdict())

    def test_a_refused_call_changes_nothing(self):
        keys = after(FIRST[:4])
        before = keys.script
        with self.assertRaises(Wait) as early:
            keys.cache_expired1(ROLL, 3699)
        self.assertEqual(early.exception.seconds, 1)
        with self.assertRaises(Refused) as twice:
            keys.add_key_ksk("K1", algorithm=13, key_tag=2, creation=0)
        self.assertEqual(twice.exception.kind, Refusal.KEY_EXISTS)
        self.assertIn(Action.CREATE_CDS_RRSET, keys.would(FIRST[4]))
        self.assertEqual(keys.script, before)

    def test_a_wrong_argument_is_named(self):
        keys, ksk = after(FIRST[:2]), RollType.KSK_ROLL
        one = {"algorithm": 13, "key_tag": 7}
        asked = {
            "pubref": [("add_key_ksk", name) for name in ("K 1", "K,1", "", "-", "\ud800", 7)],
            "privref": [("add_key_zsk", "Z2", name) for name in ("", "-", "a b")],
            "old": [("start_roll", ksk, old) for old in ("K1", [""], ["-"], ["K1,Z1"], 5, None)],
            "new": [("start_roll", ksk, (), new) for new in ("KZ", [1], {"K1"})],
            "roll": [("roll_done", "ksk-roll")],
            "ttl": [("propagation1_complete", ksk, ttl) for ttl in (-1, 2**32, 1.5, True)],
            "now": [("cache_expired1", ksk, now) for now in (-1, 2**64, float("nan"))],
            "value": [("set_signer", "K1", value) for value in (1, "yes")],
            "moment": [("set_visible", "K1", moment) for moment in (-1, "a")],
        }
        asked["now"].append(("set_present", "K1", True, float("inf")))
        for name, calls in asked.items():
            for word, *given in calls:
                with self.assertRaises(WrongArgument, msg=given) as wrong:
                    getattr(keys, word)(*given, **(one if word.startswith("add") else {}))
                self.assertEqual(wrong.exception.name, name)
        for name, value in {"algorithm": 256, "key_tag": 65536, "creation": -1}.items():
            with self.assertRaises(WrongArgument) as wrong:
                keys.add_key_csk("C1", **{**one, name: value})
            self.assertEqual(wrong.exception.name, name)
        self.assertEqual(len(keys.lines), 3)

    def test_each_public_call_is_typed(self):
        for made in (KeySet, Session, Notes, Accepted):
            for name, call in inspect.getmembers(made, inspect.isfunction):
                if call.__module__.startswith("keyset"):
                    untyped = [
                        it for it, of in inspect.signature(call).parameters.items()
                        if it != "self" and of.annotation is of.empty
                    ]
                    self.assertEqual((made, name, untyped), (made, name, []))
                    self.assertIn("return", call.__annotations__, (made, name))
        self.assertTrue((Path(keyset.__file__).parent / "py.typed").is_file())

    def test_the_types_of_a_status_are_those_of_its_schema(self):
        schema = json.loads((Path(__file__).parents[2] / "docs/status.schema.json").read_text())
        types = {"key": members.KeyMembers, "role": members.RoleMembers}
        types.update(roll=members.RollMembers, ended=members.EndedMembers)
        for name, members_type in types.items():
            properties = schema["$defs"][name]["properties"]
            self.assertEqual(sorted(members_type.__annotations__), sorted(properties))
            for member, kind in typing.get_type_hints(members_type).items():
                if typing.get_origin(kind) is typing.Literal:
                    values = properties[member]["enum"]
                    self.assertEqual([*typing.get_args(kind)], values, member)
        self.assertEqual(list(members.Status.__annotations__), schema["required"])
        published = schema["properties"]["published"]["required"]
        self.assertEqual(list(members.PublishedMembers.__annotations__), published)

    def test_errors_have_one_base(self):
        errors = [getattr(keyset, name) for name in keyset.__all__]
        errors = [it for it in errors if inspect.isclass(it) and issubclass(it, Exception)]
        errors.remove(keyset.Slow)
        self.assertEqual([it for it in errors if not issubclass(it, keyset.Error)], [])
        self.assertGreater(len(errors), 10)
        self.assertTrue(issubclass(keyset.OutOfMemory, MemoryError))
        kinds = {3: keyset.OutOfMemory, 5: keyset.Closed, 12: keyset.Lost, 99: keyset.Unavailable}
        for status, kind in kinds.items():
            self.assertIs(type(fault(status)), kind)

    def test_a_refused_line_counts_only_if_it_is_kept(self):
        session = open_session("zone example.com")
        answers = [session.accept("delete K9"), session.accept(FIRST[0])]
        self.assertEqual((answers, session.calls), (["refused: key not found", "ok"], 1))
        self.assertEqual((session.call("delete K9"), session.calls), ("refused: key not found", 2))
        with self.assertRaises(Malformed) as malformed:
            session.accept("delete")
        self.assertEqual((malformed.exception.line, session.calls), (4, 2))
        keys = after(FIRST[:2])
        with self.assertRaises(Refused):
            keys.delete_key("K9")
        asked = keys.start_roll(ROLL, new=["K1", "Z1"], now=0)
        self.assertEqual((asked.number, asked[0]), (3, Action.UPDATE_DNSKEY_RRSET))

    def test_a_session_may_forgo_notes(self):
        session = open_session("zone example.com")
        session.note("before 60 60 60")
        session.forgo_notes()
        session.accept(FIRST[0])
        copy = session.copy()
        for each in (session, copy):
            with self.assertRaises(Malformed) as forgone:
                each.note("before 60 60 60")
            self.assertEqual(forgone.exception.reason, "the session forgoes notes")
            with self.assertRaises(Malformed):
                each.due(9)
            self.assertEqual(each.accept(FIRST[1]), "ok")

    def test_a_broken_chain_is_noticed(self):
        keys = after([*FIRST, "report2 algorithm-roll 60 3710", "wait2 algorithm-roll 3770"])
        keys.set_stale("K1")
        self.assertEqual((keys.verdict().at, keys.verdict().ds), (8, 5))

    def test_a_malformed_line_is_named(self):
        keys = after(FIRST[:1])
        for line in ("delete", "delete K1\ndelete K1", "delete K\ud800"):
            for ask in (keys.call, keys.would):
                with self.assertRaises(Malformed) as malformed:
                    ask(line)
                self.assertEqual(malformed.exception.line, 3)
        for zone in ("a..b", "a\nadd-zsk Z1 - 13 1 0 yes", "\ud800"):
            with self.assertRaises(WrongArgument) as wrong:
                KeySet(zone)
            self.assertEqual(wrong.exception.name, "zone")
        with self.assertRaises(Malformed):
            KeySet.resume("")

    def test_notes_say_which_reports_are_due(self):
        keys = after(FIRST[:2])
        with self.assertRaises(Malformed):
            keys.due(9)
        keys.note("before 60 7200 3600")
        published = ["published dnskey 3 3600 10", "published zone 3 3600 10"]
        with self.assertRaises(Malformed) as early:
            keys.note(published[0])
        self.assertEqual(str(early.exception), "line 2: malformed: no such call yet")
        keys.call(FIRST[2])
        for line, due in zip(published, (Due("report1", ROLL, None, "zone"), None)):
            keys.note(line)
            kind = line.split(" ")[1]
            with self.assertRaises(Malformed) as early:
                keys.note(f"everywhere {kind} 9")
            self.assertEqual(early.exception.reason, "seen before it was published")
            keys.note(f"everywhere {kind} 30")
            self.assertEqual(keys.due(40), [due or Due("report1", ROLL, 7191)])
        keys.call("report1 algorithm-roll 7190 40")
        self.assertEqual(keys.due(40), [])
        with self.assertRaises(Malformed) as early:
            keys.note("published ds 4 3600 39")
        self.assertEqual(early.exception.reason, "published before its call")
        keys.call("wait1 algorithm-roll 7230")
        self.assertEqual(keys.due(7229), [Due("report2", ROLL, None, waits_until=7230)])

    def test_a_policy_says_what_to_do_next(self):
        keys = KeySet("example.com")
        keys.note("before 60 60 60")
        for role, line in zip(("ksk", "zsk"), FIRST):
            self.assertEqual(keys.next(POLICY, 100), Todo("key", f"key {role} 13"))
            keys.call(line)
        start = keys.next(POLICY, 100.9)
        self.assertEqual(start, Todo("call", "start algorithm-roll - K1,Z1 100"))
        keys.call(start.line)
        for kind in ("dnskey", "zone"):
            self.assertEqual(keys.next(POLICY, 103).fields, [kind])
            keys.note(f"published {kind} 3 60 101")
            self.assertEqual(keys.next(POLICY, 103), Todo("watch", f"watch {kind}"))
            keys.note(f"everywhere {kind} 103")
        keys.call(keys.next(POLICY, 103).line)
        self.assertEqual(keys.script.splitlines()[-1], "report1 algorithm-roll 61 103")
        self.assertEqual(keys.next(POLICY, 104), Todo("until", "until 164"))

    def test_why_a_policy_says_nothing_is_named(self):
        keys = KeySet("example.com")
        short = "policy 13 ksk-roll zsk-roll\nzsk-lifetime 60\n"
        why = "a lifetime of 60 seconds is shorter than a zsk-roll takes: 122"
        with self.assertRaises(NotSaid) as said:
            keys.next(POLICY, 100)
        self.assertEqual(str(said.exception), "notes: line 1: malformed")
        keys.note("before 60 60 60")
        for policy, text in (("", "line 1: malformed"), (short, why)):
            with self.assertRaises(NotSaid) as said:
                keys.next(policy, 100)
            self.assertEqual(str(said.exception), f"policy: {text}")

    def test_a_closed_key_set_says_so(self):
        keys = after(FIRST[:4])
        keys.close()
        keys.close()
        questions = keys.status, lambda: keys.published, lambda: keys.next(POLICY, 1)
        for asked in (*questions, lambda: keys.call(FIRST[4])):
            with self.assertRaises(ValueError) as closed:
                asked()
            self.assertEqual(str(closed.exception), "the key set is closed")
        self.assertEqual(len(keys.lines), 5)

    def test_threads_have_sessions_of_their_own(self):
        lengths = {}

        def play(number):
            keys = after(FIRST[: number % 5 + 1])
            lengths[number] = len(keys.lines)

        threads = [threading.Thread(target=play, args=(number,)) for number in range(20)]
        for thread in threads:
            thread.start()
        for thread in threads:
            thread.join()
        self.assertEqual(lengths, {number: number % 5 + 2 for number in range(20)})


class FileTests(unittest.TestCase):
    def setUp(self):
        self.folder = tempfile.TemporaryDirectory()
        self.path = Path(self.folder.name) / "example.com.script"

    def tearDown(self):
        self.folder.cleanup()

    def test_a_file_keeps_the_accepted_lines(self):
        with KeySet.create(self.path, "example.com") as keys:
            keys.call(FIRST[0])
            with self.assertRaises(Refused):
                keys.delete_key("K1")
            with self.assertRaises(Locked):
                KeySet.open(self.path)
        with open(self.path, "a") as file:
            file.write(f"add-zsk {'Z' * 99}")
        with self.assertRaises(Torn) as torn:
            KeySet.open(self.path)
        self.assertEqual(torn.exception.line, 3)
        with KeySet.open(self.path, cut_torn=True) as keys:
            self.assertEqual(keys.call(FIRST[1]).number, 2)
            self.assertEqual(sorted(keys.keys()), ["K1", "Z1"])
        self.assertEqual(self.path.read_text().splitlines()[1:], FIRST[:2])
        with self.assertRaises(FileExistsError):
            KeySet.create(self.path, "example.com")

    def test_a_damaged_file_is_named_by_its_line(self):
        texts = {"": 1, "zone a\n\n": 2, "zone a\r\n": 1, "zone a\nadd-ksk K\u00e9\n": 2}
        texts["zone a\ndelete K1\ndelete K1\r\n"] = 3
        for text, line in texts.items():
            self.path.write_text(text, encoding="utf-8")
            with self.assertRaises(Damaged) as damaged:
                KeySet.open(self.path)
            self.assertEqual(damaged.exception.line, line)

    def test_a_line_that_cannot_be_kept_is_not_made(self):
        with KeySet.create(self.path, "example.com") as keys:
            os.unlink(self.path)
            with self.assertRaises(OSError):
                keys.call(FIRST[0])
            os.mkdir(self.path)
            with self.assertRaises(Locked):
                keys.call(FIRST[0])
            self.assertEqual(keys.keys(), {})
            os.rmdir(self.path)

    def note_the_example(self):
        """Makes the notes of a TTL that is lowered."""
        Notes.create(self.path, [3600, 43200, 43200])
        first = Notes(self.path)
        first.publish(3, {"dnskey": 43200, "zone": 43200}, 10.5)
        first.publish(3, {"dnskey": 3600, "zone": 43200}, 20)
        first.everywhere({"dnskey": 43200}, 30)
        Notes(self.path).everywhere({"dnskey": 43200, "zone": 43200}, 59.5)
        Notes(self.path).publish(5, {"ds": 86400}, 43270)
        Notes(self.path).everywhere({"ds": 3600, "zone": 60}, 43300)
        Notes(self.path).publish(7, {"dnskey": 7200}, 46910)
        Notes(self.path).everywhere({"dnskey": 7200}, 46950)
        Notes(self.path).publish(10, {"dnskey": None}, 47005)
        Notes(self.path).everywhere({"dnskey": 7200}, 47060)

    def test_notes_are_those_of_the_example(self):
        # docs/REFERENCE.md shows them.
        stored = (Path(__file__).parents[2] / "examples/lowered-ttl.notes").read_text().splitlines()
        wanted = [line for line in stored if line.startswith(("before", "published", "everywhere"))]
        self.note_the_example()
        self.assertEqual(Notes(self.path).lines, wanted)
        # At 47060 caches may hold the set with 12 hours until 46950 + 43200.
        held = [Seen(wanted, moment).ttls["dnskey"] for moment in (90150, 90151)]
        self.assertEqual([max(ttls) for ttls in held], [43200, 7200])
        Notes(self.path).everywhere({"ds": 90000}, 47070)
        more = ["published ds 5 90000 47070", "everywhere ds 47070"]
        self.assertEqual(Notes(self.path).lines, [*wanted, *more])
        Notes(self.path).path.write_text("published ds 5 90000 47070\n")
        with self.assertRaises(Damaged):
            Notes(self.path)


if __name__ == "__main__":
    unittest.main()
