"""Random lists: ledger beside engine, plans that sign, independent steps that change places."""
from hypothesis import given, settings, strategies as st

from take_ledger import Session, Step, play, volume

few = st.integers(0, 3)
parcels = st.integers(0, 12)
texts = st.integers(0, 3)
steps = st.one_of(
    st.builds(Step.root, texts), st.builds(Step.letter, few, texts), st.builds(Step.receive, parcels),
    st.builds(Step.new, few, texts), st.builds(Step.send, few, few, texts), st.builds(Step.read, few),
    st.builds(Step.write, few, texts), st.builds(Step.freeze, few), st.builds(Step.done, few),
    st.builds(Step.fall, few), st.builds(Step.fail, few), st.builds(Step.lose, parcels),
    st.builds(Step.sign, st.sets(few)),
)
opening = [Step.root(0), Step.root(1), Step.letter(0, 0), Step.receive(0), Step.letter(1, 0), Step.receive(1)]
lists = st.lists(steps, max_size=60).map(lambda rest: opening + rest)
limits = st.tuples(st.integers(1, 16), st.integers(1, 32), st.integers(1, 15))
settings.register_profile("kit", deadline=None, max_examples=300)
settings.load_profile("kit")


@given(lists, limits)
def test_engine_replies_as_the_ledger(list_of_steps, limit):
    assert play(list_of_steps, *limit) == Session(*limit).run(list_of_steps)


@given(lists)
def test_a_plan_signs(list_of_steps):
    session = Session()
    session.run(list_of_steps)
    for take in range(4):
        try:
            plan = session.plan(take)
        except Exception as refused:
            assert getattr(refused, "number", 0) in (21, 22)
            continue
        if plan:
            copy = session.copy()
            assert {reply.outcome for reply in copy.run(plan)} == {0}
            assert plan[-1].parcel & volume({take})


@given(lists, steps, steps)
def test_independent_steps_change_places(list_of_steps, first, second):
    session = Session()
    session.run(list_of_steps)
    if session.independent(first, second):
        one, other = session.copy(), session.copy()
        a, b = one.run([first, second])
        d, c = other.run([second, first])
        assert (a, b) == (c, d) and one == other


@given(lists, steps)
def test_a_step_changes_takes_of_its_actor_alone(list_of_steps, step):
    session = Session()
    session.run(list_of_steps)
    before, takes = session.image, session.actor(step).takes
    opened = before[0]
    session.run(step)
    for t in range(opened):
        if t not in takes:
            at = 8 + 1593 * t
            assert session.image[at : at + 1593] == before[at : at + 1593]
