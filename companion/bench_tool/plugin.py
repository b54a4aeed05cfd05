"""The pytest plugin, which pytest loads where `bench_tool` is installed: the fixture `bench`."""
from typing import Iterator

import pytest

from .bench import Session


@pytest.fixture
def bench() -> Iterator[Session]:
    """An empty session, closed after the test."""
    with Session() as session:
        yield session
