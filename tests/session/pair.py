"""Two cabinets, P1 and P2, at the places 1 and 2: the steps that they take together, or that are taken again and again."""

from paper.wire import ABORT, ADDRESS, FEC, MAPPING, NO_RESOURCES, NOTIFICATION, RELEASE, REQUEST, RESOURCES, STATUS_CODE, TYPE, WITHDRAW
from paper.wire import label_tlv, message, request_id_tlv, status_tlv, tlv
from player import Player

P1, P2 = 1, 2
OTHER = {P1: P2, P2: P1}
# Beside them: an image that is kept, and the copy that a call is made on; SHORT is the copy of all bytes but the last.
SHORT, KEPT, COPY = 0, 3, 4
A_PREFIX = tlv(FEC, bytes.fromhex("020001200a000001"))
AN_ADDRESS = message(TYPE[ADDRESS], 3, tlv(0x0101, bytes.fromhex("0001c0000201")))


def label_message(kind, label, *tlvs):
    return message(TYPE[kind], label, A_PREFIX, label_tlv(label), *tlvs)


def request_message(ident, *tlvs):
    return message(TYPE[REQUEST], ident, A_PREFIX, *tlvs)


def abort_message(ident, *tlvs):
    """The Abort of a Request by its message ID."""
    return message(TYPE[ABORT], 5, A_PREFIX, request_id_tlv(ident), *tlvs)


def notification(kind, about=0, *tlvs):
    """Resources Available or No Resources, about a message with that ID."""
    return message(NOTIFICATION, 6, status_tlv(STATUS_CODE[kind], about), *tlvs)


class Pair(Player):
    # Each owner proposes 5 seconds, in the draft's form, where a case does not name another proposal; None gives none.
    def fresh(self, ours=5, theirs=5, on_demand=False):
        for end in (P1, P2):
            self.format(end, f"P{end} format")
        self.connect(ours, theirs, on_demand)

    def begin(self, end, proposal=5, on_demand=False):
        self.open(end, f"P{end} open", proposal, on_demand)

    def connect(self, ours=5, theirs=5, on_demand=False):
        self.begin(P1, ours, on_demand)
        self.begin(P2, theirs, on_demand)
        for end in (P1, P2):
            self.init(end, f"P{end} init", OTHER[end])

    def lose(self, *ends):
        for end in ends or (P1, P2):
            self.failed(end, f"P{end} connection failed")

    def mapping(self, end, label, answer=0):
        self.submit(end, f"P{end} submit Mapping {label}", label_message(MAPPING, label))
        self.answered(answer)

    def withdraw(self, end, label, answer=0):
        self.submit(end, f"P{end} submit Withdraw {label}", label_message(WITHDRAW, label))
        self.answered(answer)

    def release(self, end, label, answer=0):
        self.submit(end, f"P{end} submit Release {label}", label_message(RELEASE, label))
        self.answered(answer)

    def request(self, end, ident, answer=0):
        self.submit(end, f"P{end} submit Request {ident}", request_message(ident))
        self.answered(answer)

    def abort(self, end, ident, answer=0):
        self.submit(end, f"P{end} submit Abort {ident}", abort_message(ident))
        self.answered(answer)

    def answer(self, end, ident, label):
        """The Mapping that the peer has asked for."""
        self.submit(end, f"P{end} submit Mapping {label} for {ident}", label_message(MAPPING, label, request_id_tlv(ident)))
        self.answered(0)

    def stop(self, end):
        self.submit(end, f"P{end} submit No Resources", notification(NO_RESOURCES))
        self.answered(0)

    def resume(self, end):
        self.submit(end, f"P{end} submit Resources Available", notification(RESOURCES))
        self.answered(0)

    def address(self, end):
        self.submit(end, f"P{end} submit Address", AN_ADDRESS)

    def send_lost(self, end):
        self.send(end, f"P{end} send, lost")

    def arrive(self, end):
        self.receive(end, f"P{end} receive", OTHER[end])

    def pass_on(self, end, ack=False):
        self.send(end, f"P{end} send", ack=ack)
        self.arrive(OTHER[end])

    def alive(self, end):
        self.keepalive(end, f"P{end} keepalive")
        self.arrive(OTHER[end])

    def unprotected(self, label):
        self.receive(P1, f"P1 receive Mapping {label}, unprotected", label_message(MAPPING, label))

    def wait(self, millis):
        self.time(P1, f"P1 time passed {millis}", millis)
        self.both()

    def both(self):
        for end in (P1, P2):
            self.counts(end, f"P{end}")
