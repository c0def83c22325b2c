"""The fixture `assert_conforms` for pytest."""
from __future__ import annotations

from typing import Callable

import pytest

from . import USUAL_BUDGET, USUAL_SLACK, Judgement, Level, Text, explain, judge


def conforms(trace: Text, level: Level = Level.FULL, slack: int = USUAL_SLACK, budget: int = USUAL_BUDGET) -> Judgement:
    """Fails the test unless `level` or a stricter one has a yes. The message is the judgement and the explanation of
    its last case."""
    __tracebackhide__ = True
    judgement = judge(trace, level, slack, budget)
    if not judgement:
        pytest.fail(f"{judgement.text}\n{explain(judgement.case)}", pytrace=False)
    return judgement


@pytest.fixture
def assert_conforms() -> Callable[..., Judgement]:
    """A function that fails the test unless a trace conforms."""
    return conforms
