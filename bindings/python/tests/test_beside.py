"""Links and replays beside the vectors and the model."""

import beside
import mquerier
import pytest
from played import Played, event_line

NAMES = {"rv": "robustness", "qi": "query_interval", "qri": "response_interval", "lmqi": "last_member_interval"}
LIMITS = ("groups", "group_sources", "sources", "scheduled")


def asked(options):
    """The words of a replay with these options of the model."""
    found = {name: getattr(options, short) for short, name in NAMES.items()}
    found |= {name: getattr(options, name) for name in LIMITS if getattr(options, name) is not None}
    return {**found, "source_specific": options.ssm, "until": options.until, "changes": options.changes}


def test_vectors_through_a_link():
    assert beside.vector_wrong(Played) == []


@pytest.mark.parametrize("vector", beside.vectors(), ids=lambda it: it[0])
def test_vector_by_replay(vector):
    _, data, family, options, text = vector
    assert [event_line(it) for it in mquerier.replay(data, options.own, **asked(options))] == text.splitlines()


def test_made_up_sequences_through_a_link():
    assert beside.sequences_wrong(Played, 2000) == []
