"""What a daemon has to answer to control lines while no tick and no datagram comes, worked out apart from it: the
places of joiners are those of draws.py."""

import re

from tests.models.config_model import LARGEST_ID, MOST_MEMBERS, is_peer
from tests.models.draws import Draws

LINE_BYTES = 128
READS = 1_048_576
MYSELF, LISTED, FULL, UNKNOWN = 1, 2, 3, 4
LONG, WORD, BAD_ID, BAD_PEER, EXTRA, UNENDED = 1, 2, 3, 4, 5, 6
JOURNAL_FULL, STOPPING = b"journal full", b"stopping"
WORDS = {b"list": "", b"join": "ip", b"remove": "i", b"gap": "i", b"reload": "", b"stop": ""}


class Model:
    """A member with its table, and how many entries its journal has."""

    def __init__(self, me, members, seed, limit):
        self.me, self.peers, self.limit, self.seed = me, dict(members), limit, bytes.fromhex(seed)
        self.life = -1
        self.next_life()

    def next_life(self):
        """The members stay; the journal is empty, and the draws are those of the next stream."""
        self.life += 1
        self.draws = Draws(self.seed, self.life)
        self.entries = 0

    def served(self, text):
        """What a connection is answered on which this comes, and whether it stops the daemon. A full journal ends the
        connection and the life."""
        answers, reads = [], READS
        *lines, rest = text.split(b"\n")
        for line in lines:
            reads -= min(len(line), LINE_BYTES) + 1
            if reads < 0:
                return answers, False
            if len(line) > LINE_BYTES:
                return answers + [fault(LONG)], False
            answers += self.answer(line)
            if answers[-1] == JOURNAL_FULL:
                self.next_life()
                return answers, False
            if answers[-1] == STOPPING:
                return answers, True
        return answers + self.end(rest, reads), False

    def end(self, rest, reads):
        """What is answered behind the last whole line."""
        if len(rest) > LINE_BYTES:
            return [fault(LONG)] if reads > LINE_BYTES else []
        return [fault(UNENDED)] if rest and reads > len(rest) else []

    def answer(self, line):
        word, *arguments = line.split(b" ")
        if word not in WORDS:
            return [fault(WORD)]
        for kind, argument in zip(WORDS[word], [*arguments, None, None]):
            if kind == "i" and (argument is None or not is_id(argument)):
                return [fault(BAD_ID)]
            if kind == "p" and (argument is None or not is_peer(argument.decode("latin-1"))):
                return [fault(BAD_PEER)]
        if len(arguments) > len(WORDS[word]):
            return [fault(EXTRA)]
        return getattr(self, word.decode())(*arguments)

    def list(self):
        return [b"%d %s up" % it for it in sorted(self.peers.items())] + [b"."]

    def join(self, text, peer):
        def joined(id):
            if id in self.peers:
                return refused(LISTED)
            if len(self.peers) == MOST_MEMBERS:
                return refused(FULL)
            place = self.draws.place(len(self.peers))
            self.peers[id] = peer
            return [b"joined %d" % place]

        return self.called(int(text), joined)

    def remove(self, text):
        return self.called(int(text), lambda id: [b"removed"] if self.peers.pop(id, None) else refused(UNKNOWN))

    def called(self, id, call):
        """A call makes an entry, also one that is refused."""
        if self.entries == self.limit:
            return [JOURNAL_FULL]
        self.entries += 1
        return refused(MYSELF) if id == self.me else call(id)

    def gap(self, _text):
        return [b"gap none"]

    def reload(self):
        """The configuration is as it was."""
        return [b"reloaded"]

    def stop(self):
        return [STOPPING]


def fault(number):
    return b"fault %d" % number


def refused(number):
    return [b"refused %d" % number]


def is_id(text):
    return bool(re.fullmatch(rb"[1-9][0-9]{0,9}", text)) and int(text) <= LARGEST_ID
