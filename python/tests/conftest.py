"""What tests of several modules share with pytest: a browser without a window, and the two ways to a session."""

from __future__ import annotations

import os
import signal
from collections.abc import Iterator
from pathlib import Path

import pytest
from browsers import started
from selenium.webdriver.remote.webdriver import WebDriver

from pevudlo import NotFound, find_library

# A shell starts what runs behind it with Ctrl-C ignored, and what the tests start would ignore it too.
signal.signal(signal.SIGINT, signal.default_int_handler)

# Where this variable is `required`, a library that isn't there is a failure, and else what wants it is skipped.
VARIABLE = "PEVUDLO_LIBRARY"


@pytest.fixture(scope="session")
def libparis() -> Path:
    """The library libparis.so."""
    try:
        return find_library()
    except NotFound as error:
        if os.environ.get(VARIABLE) == "required":
            pytest.fail(str(error))
        pytest.skip(str(error))


@pytest.fixture(params=[False, True], ids=["program", "library"])
def library(request: pytest.FixtureRequest) -> bool:
    """Whether a machine is over the library: once over the program and once over the library."""
    if request.param:
        request.getfixturevalue("libparis")
    return bool(request.param)


@pytest.fixture(scope="session")
def browser() -> Iterator[WebDriver]:
    """Debian's Chromium, which notes what pages complain of."""
    driver = started()
    yield driver
    driver.quit()
