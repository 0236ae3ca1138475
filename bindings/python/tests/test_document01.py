"""Document 01's session, and what a user meets first."""
import pickle
import threading

import pytest

import take_ledger
from take_ledger import Fault, Refused, Reply, Session, Step

DOCUMENT_01 = [
    Step.root(7), Step.root(8), Step.letter(to=0, text=5), Step.receive(0), Step.write(0, 9),
    Step.send(0, to=1, text=9), Step.receive(1), Step.write(1, 10), Step.freeze(1), Step.sign({1}),
    Step.freeze(0), Step.sign({0, 1}), Step.fail(0),
]
# the table of document 01: outcome, take, parcel, text
REPLIES = [
    (0, 0, 0, 0), (0, 1, 0, 0), (0, 0, 0, 0), (0, 0, 0, 5), (0, 0, 0, 0), (0, 0, 1, 0), (0, 1, 1, 9),
    (0, 1, 0, 0), (0, 1, 0, 0), (5, 0, 0, 0), (0, 0, 0, 0), (0, 0, 0, 0), (3, 0, 0, 0),
]


def test_document_01_by_ledger_and_engine():
    session = Session()
    assert session.run(DOCUMENT_01) == [Reply(*reply) for reply in REPLIES]
    assert take_ledger.play(DOCUMENT_01) == [Reply(*reply) for reply in REPLIES]


def test_a_step_says_itself_in_the_notation():
    assert str(Step.send(0, to=1, text=9)) == "send 0 to 1 text 9"
    assert f"{Step.sign({0, 1})}" == "sign {0,1}"
    assert [str(step) for step in take_ledger.parse("freeze 3\nraw f000000000000001\n")] == ["freeze 3", "raw f000000000000001"]


def test_step_by_step_is_the_same():
    session, whole = Session(), Session()
    replies = [reply for step in DOCUMENT_01 for reply in session.run(step)]
    assert replies == whole.run(DOCUMENT_01)
    assert session == whole and session.image == whole.image


def test_questions_before_the_signing():
    session = Session()
    session.run(DOCUMENT_01[:9])
    assert session.smallest_volume(1) is None
    assert session.obstacle({1}) == take_ledger.Obstacle("outside", 1, 0)
    assert session.impediment(1) == take_ledger.Impediment("not frozen", 0, 0, 0)
    assert session.dependents(0).through == {0, 1}
    assert session.plan(1) == [Step.freeze(0), Step.sign({0, 1})]
    session.run(session.plan(1))
    assert session.ready_count(1) == 0
    assert session.all_heard_frozen(1) is True


def test_a_refused_call_changes_nothing():
    session = Session(takes=4, parcels=8, signings=15)
    before = session.image
    with pytest.raises(Refused) as refused:
        session.offer(9)
    assert refused.value.number == 21 and refused.value.text
    with pytest.raises(Refused) as refused:
        session.run(bytes(8) + b"123")
    assert refused.value.number == 17
    assert session.image == before
    with pytest.raises(Refused) as refused:
        Session(takes=17)
    assert refused.value.number == 33


def test_seventeen_even_after_a_thousand_steps():
    session = Session()
    before = session.image
    with pytest.raises(Refused) as refused:
        session.run(bytes(8) * 1024 + b"1")
    assert refused.value.number == 17 and session.image == before


def test_a_list_longer_than_a_run():
    session, parts = Session(), Session()
    steps = DOCUMENT_01 + [Step.letter(0, 1), Step.letter(0, 2)] * 1500
    assert session.run(steps) == [r for step in steps for r in parts.run(step)]
    assert session == parts


def test_damaged_images():
    with pytest.raises(Refused) as refused:
        Session.from_image(b"short")
    assert refused.value.number == 16
    image = bytearray(Session().image)
    image[7] = 1
    with pytest.raises(Refused) as refused:
        Session.from_image(bytes(image))
    assert refused.value.number == 19


def test_pickling():
    session = Session()
    session.run(DOCUMENT_01)
    again = pickle.loads(pickle.dumps(session))
    assert again == session and again.run([Step.root(1)]) == session.run([Step.root(1)])
    with pytest.raises(Refused) as refused:
        session.offer(15)
    assert pickle.loads(pickle.dumps(refused.value)).number == 21


def test_threads_share_a_session():
    session = Session(parcels=32)
    session.run([Step.root(0)])
    replies = []

    def letters():
        for _ in range(200):
            made = session.run([Step.letter(0, 1)])[0]
            replies.append((made.outcome, made.parcel))
            session.run([Step.lose(made.parcel)])

    threads = [threading.Thread(target=letters) for _ in range(8)]
    for thread in threads:
        thread.start()
    for thread in threads:
        thread.join()
    assert len(replies) == 1600 and {outcome for outcome, _ in replies} == {0}
    assert sorted(parcel for _, parcel in replies) == list(range(1600))


def test_texts():
    steps = take_ledger.parse("root text 7\nletter to 0 text 5\n\n# a remark\nsign {0,1}\n")
    assert steps == [Step.root(7), Step.letter(0, 5), Step.sign({0, 1})]
    assert take_ledger.text_of(steps) == "root text 7\nletter to 0 text 5\nsign {0,1}\n"
    with pytest.raises(Fault) as fault:
        take_ledger.parse("root text 7\nletter to 16 text 5\n")
    assert (fault.value.line, fault.value.column) == (2, 11)
    assert fault.value.expected == "a take, 0 to 15"
    session = Session()
    assert take_ledger.reply_text(Step.root(7), session.run(Step.root(7))[0])
    assert "take 0" in str(session)


@pytest.mark.parametrize("number", range(16, 36))
def test_every_refusal_has_words(number):
    assert take_ledger.refusal_text(number)


@pytest.mark.parametrize("wrong", [
    lambda: Step.root(1 << 32), lambda: Step.root(-1), lambda: Step.letter(16, 0), lambda: Step.receive(65536),
    lambda: Step.sign({16}), lambda: Session(takes=-1), lambda: Session().offer(-1), lambda: Session().offer(1 << 64),
])
def test_numbers_that_do_not_fit(wrong):
    with pytest.raises(ValueError):
        wrong()


@pytest.mark.parametrize("wrong", [
    lambda: Step.root("7"), lambda: Step.root(True), lambda: Step.root(7.0), lambda: Step.sign("01"),
    lambda: Session().run("root text 7"), lambda: Session().run([b"12345678"]), lambda: Session().offer("0"),
])
def test_strings_are_not_numbers(wrong):
    with pytest.raises(TypeError):
        wrong()


def test_an_empty_volume_is_the_ledgers_to_refuse():
    session = Session()
    assert session.run(Step.sign(())) == [Reply(29)]
    with pytest.raises(Refused) as refused:
        session.obstacle({16})
    assert refused.value.number == 21
