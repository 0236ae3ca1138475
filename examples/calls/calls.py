"""An example of each call in Python; docs/CALLS.md shows them, tests/calls runs them."""
from take_ledger import (
    Fault, Refused, Session, Step, back, compare, fault, forward, parse, play, refusal_text, reply_text,
    text_of, version, worst_window,
)


def hearing():
    """Take 0 is the names, take 1 a page that was set from them and is frozen; parcel 2 waits."""
    session = Session()
    session.run(parse(
        "root text 7\nroot text 8\nletter to 0 text 5\nreceive 0\nwrite 0 text 9\nsend 0 to 1 text 9\n"
        "receive 1\nwrite 1 text 10\nfreeze 1\nsend 0 to 1 text 11\n"
    ))
    return session


def ledger_version():
    assert version().split(".")[0] == "4"


def ledger_begin():
    session = Session(takes=4, parcels=8, signings=15)
    assert len(session.image) == 42616


def ledger_run():
    session = Session()
    replies = session.run([Step.root(text=7), Step.letter(to=0, text=5), Step.receive(0)])
    assert [reply.word for reply in replies] == ["done", "done", "done"]
    assert replies[2].text == 5


def ledger_offer():
    assert hearing().offer(1) == 2
    assert hearing().offer(0) is None


def ledger_show():
    assert len(hearing().show(2)) == 528


def ledger_smallest_group():
    session = hearing()
    assert session.smallest_volume(1) is None
    session.run(Step.freeze(0))
    assert session.smallest_volume(1) == {0, 1}


def ledger_ready_count():
    session = hearing()
    session.run(Step.freeze(0))
    assert session.ready_count(1) == 1  # the names alone
    assert session.ready_count(2) == 1  # the names and the page


def ledger_all_heard_stable():
    assert hearing().all_heard_frozen(1) is False  # the names were not frozen when they sent


def ledger_dependents():
    reached = hearing().dependents(0)
    assert reached.through == {0, 1}
    assert reached.carried == 1  # parcel 2


def ledger_obstacle():
    obstacle = hearing().obstacle({1})
    assert (obstacle.kind, obstacle.take, obstacle.ground) == ("outside", 1, 0)


def ledger_impediment():
    impediment = hearing().impediment(1)
    assert (impediment.kind, impediment.take) == ("not frozen", 0)


def ledger_actor():
    session = hearing()
    assert session.actor(Step.write(1, text=3)).takes == {1}
    assert session.actor(Step.receive(2)).takes == {1}
    assert session.actor(Step.root(text=1)).kind == "house"


def ledger_plan():
    session = hearing()
    assert session.plan(1) == [Step.freeze(0), Step.sign({0, 1})]
    assert all(reply.word == "done" for reply in session.run(session.plan(1)))


def ledger_fault():
    damaged = bytearray(hearing().image)
    damaged[7] = 1
    assert fault(bytes(damaged)) == (7, 1)  # byte 7, clause 1 of the form
    assert fault(hearing().image) is None


def ledger_thin():
    kept = Session().thin([Step.root(text=1), Step.read(0), Step.root(text=2)])
    assert kept == [Step.root(text=1), Step.root(text=2)]  # the read was refused


def ledger_forward():
    old = back(hearing().image)
    assert len(old) == 22132 and forward(old) == hearing().image


def ledger_back():
    try:
        back(Session(takes=4).image)
    except Refused as refused:
        assert refused.number == 32  # the old form has no limits


def ledger_worst_window():
    replies = Session().run(parse("root text 1\nfail 0\nroot text 2\nfail 1\n"))
    assert worst_window(replies, 3) == (2, 1)  # two vanished within three replies, from the second on


def engine_play():
    steps = parse("root text 7\nletter to 0 text 5\nreceive 0\n")
    assert play(steps) == Session().run(steps)


def looking_decision():
    session = hearing()
    session.run(Step.done(1))  # only an idle take receives
    assert session.decide(2).outcome == 0  # it would be taken in


def looking_compare():
    image = hearing().image
    own = image[8 + 9 : 8 + 9 + 33]  # the own mark of take 0
    assert compare(own, own) == ("same life", "left")


def looking_independent():
    session = hearing()
    assert session.independent(Step.freeze(0), Step.done(1))
    assert not session.independent(Step.root(text=1), Step.root(text=2))


def notation_parse():
    assert parse("root text 7  # names\n") == [Step.root(text=7)]
    try:
        parse("read 16\n")
    except Fault as found:
        assert (found.line, found.column, found.expected) == (1, 6, "a take, 0 to 15")


def notation_refusal_text():
    assert refusal_text(19) == "image ill-formed"


def notation_print():
    assert text_of([Step.sign({1, 0})]) == "sign {0,1}\n"


def notation_reply():
    step = Step.root(text=7)
    assert reply_text(step, Session().run(step)[0]) == "done take 0"


def notation_image():
    assert str(hearing()).startswith("limits: takes 16, parcels 32, signings 15\n")
