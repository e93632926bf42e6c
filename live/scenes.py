"""The scenes of a run."""

import re
from typing import Callable, NamedTuple

import by_command
import by_itself
import by_words
import commanded
import emergencies
import from_bind
import from_policy
import lost
import offline
import one_signer
import running
import takeovers
import two_emergencies
import two_signers
from lies import LYING, LYING_TWO


class Scene(NamedTuple):
    """A scene, which has a zone of its own, and one provider or two."""

    name: str
    play: Callable
    letters: str
    is_lie: bool
    round: int = 1
    # The most seconds that it may take.
    most: int = 900

    @property
    def zone(self):
        return f"{self.name}-{self.round}."


# The longest come first.
SCENES = [
    *(Scene(name, play, "A", False)
      for name, play in {**running.HONEST, **from_policy.HONEST}.items()),
    *(Scene(name, play, "A", False, most=by_itself.MOST)
      for name, play in by_itself.HONEST.items()),
    *(Scene(name, play, "A", False) for name, play in by_itself.OF_SIGNERS.items()),
    *(Scene(name, play, "A", False) for name, play in by_words.HONEST.items()),
    Scene("resolvers-restarted", one_signer.restarted, "A", False),
    *(Scene(name, play, "A", False) for name, play in one_signer.LONG.items()),
    *(Scene(name, play, "AB", False) for name, play in two_signers.HONEST.items()),
    *(Scene(name, play, "AB", False) for name, play in two_emergencies.HONEST.items()),
    *(Scene(name, play, "AB", True) for name, play in LYING_TWO.items()),
    *(Scene(name, play, "A", False) for name, play in emergencies.HONEST.items()),
    *(Scene(name, play, "A", False) for name, play in lost.HONEST.items()),
    *(Scene(name, play, "A", True) for name, play in LYING.items()),
    *(Scene(name, play, "A", False) for name, play in one_signer.HONEST.items()),
    Scene("by-command", by_command.tour, "A", False),
    *(Scene(name, play, "A", False) for name, play in commanded.HONEST.items()),
    *(Scene(name, play, "A", False) for name, play in from_bind.HONEST.items()),
    *(Scene(name, play, "A", False) for name, play in takeovers.HONEST.items()),
    *(Scene(name, play, "A", False) for name, play in offline.HONEST.items()),
    Scene("server-without-address", commanded.without_address, "AB", False),
    Scene("secondary-comes-back-old", commanded.comes_back_old, "A", True),
]

# The scenes that only the whole run plays, though no other is like them; and the scenes that the
# short form plays of those that are alike.
ONLY_WHOLE = {
    "two-csk-rolls-of-each",
    "two-zsk-rolls-at-once",
    "two-ksk-rolls-at-once",
    "two-csk-joins-and-leaves",
    "two-rolls-while-joining",
    "two-lost-csk",
    "two-new-scripts",
    "two-unsigned-in-mid-roll",
    "lost-csk",
    "lost-ksk-ended-early",
    "lost-ds",
    "false-line-taken-back",
    "ended-early-beside",
    "slow-parent",
    "raised-ttls",
    "nsec3",
    "csks",
    "double-ds-beside-double-signature",
    "command-acts-at-once",
    "command-ds-ttl-raised",
    "command-lost-ksk",
    "command-serial-by-date",
    "command-signatures-expired",
    "command-unsigned",
    "from-bind-ksk-zsk",
    "from-bind-csk",
    "from-bind-serial-by-date",
    *running.HONEST,
    *from_policy.HONEST,
    *by_itself.OF_SIGNERS,
    *by_words.HONEST,
    *takeovers.HONEST,
    *offline.HONEST,
    "server-without-address",
    "secondary-comes-back-old",
}
ALIKE = re.compile(
    r"-(ended-early|stolen-new-\w+|lost|lost-before|lost-later|at-wait|comes-back|in-mid-roll|"
    r"early-end|changing-ttls|of-the-clock|ttl-of-0|publishing)$|^(in-a-row|lost-\w+-beside)-|"
    r"^two-leaves-"
)
OF_THEM = {
    "ksk-roll-ended-early",
    "ksk-double-ds-roll-ended-early",
    "ksk-roll-stolen-new-key",
    "algorithm-roll-changing-ttls",
    "two-changing-ttls",
    "two-leaves-in-algorithm-roll",
    "algorithm-roll-old-key-lost",
    "algorithm-roll-lines-lost",
    "csk-roll-new-key-lost-at-wait",
    "zsk-roll-new-zsk-lost-later",
    "lost-zsk-beside-ksk-roll",
    "zsk-roll-wait-ahead-of-the-clock",
    "ksk-roll-ttl-of-0",
    "csk-roll-report-before-publishing",
}


def is_short(name):
    return name not in ONLY_WHOLE and (not ALIKE.search(name) or name in OF_THEM)


def is_played(name, short):
    """Whether a run plays a scene that nobody has named."""
    return name not in by_itself.HONEST and (is_short(name) or not short)


def chosen(names, short, rounds):
    """The scenes with these names, or all that are played unnamed, or those of the short form. A
    scene with a lie is played once."""
    unknown = set(names) - {scene.name for scene in SCENES}
    if unknown:
        raise SystemExit(f"no scene: {' '.join(sorted(unknown))}")
    return [
        scene._replace(round=number)
        for number in range(1, rounds + 1) for scene in SCENES
        if scene.name in names or not names and is_played(scene.name, short)
        if number == 1 or not scene.is_lie
    ]


def not_among(scenes):
    """The names of all other scenes."""
    names = {scene.name for scene in scenes}
    return [scene.name for scene in SCENES if scene.name not in names]
