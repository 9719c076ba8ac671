"""Short ways to ask a page in a browser, each bounded in time."""

from __future__ import annotations

from collections.abc import Callable
from typing import Any

from selenium import webdriver
from selenium.common.exceptions import StaleElementReferenceException
from selenium.webdriver.chrome.service import Service
from selenium.webdriver.common.by import By
from selenium.webdriver.common.keys import Keys
from selenium.webdriver.remote.webdriver import WebDriver
from selenium.webdriver.remote.webelement import WebElement
from selenium.webdriver.support.wait import WebDriverWait

PATIENCE = 15.0
"""Seconds that a page has."""


def started() -> WebDriver:
    """A browser without a window, which notes what pages complain of."""
    options: Any = webdriver.ChromeOptions()
    for word in (
        "--headless=new",
        "--no-sandbox",
        "--disable-gpu",
        "--disable-dev-shm-usage",
        "--window-size=1500,1400",
    ):
        options.add_argument(word)
    options.set_capability("goog:loggingPrefs", {"browser": "ALL"})
    driver = webdriver.Chrome(service=Service("/usr/bin/chromedriver"), options=options)
    driver.set_page_load_timeout(PATIENCE)
    driver.set_script_timeout(PATIENCE)
    return driver


def evaluated(driver: WebDriver, script: str, *words: object) -> Any:
    """What a script gives in the page."""
    run: Any = driver.execute_script
    return run(script, *words)


def until(driver: WebDriver, what: Callable[[], bool]) -> None:
    """Waits until something holds, and fails where it doesn't in time. What was replaced is looked for again."""
    WebDriverWait(driver, PATIENCE, 0.05, [StaleElementReferenceException]).until(lambda _: what())


def one(driver: WebDriver, selector: str) -> WebElement:
    """The first element that a selector names, once it is there."""
    until(driver, lambda: bool(driver.find_elements(By.CSS_SELECTOR, selector)))
    found: WebElement = driver.find_element(By.CSS_SELECTOR, selector)
    return found


def cells(driver: WebDriver, selector: str) -> list[str]:
    """The numbers of a grid on the page, as they are shown."""
    script = (
        "return [...document.querySelectorAll(arguments[0] + ' td:not(.pv-corner)')].map(cell => cell.firstChild.data)"
    )
    numbers: list[str] = evaluated(driver, script, selector)
    return numbers


def values(driver: WebDriver, row: int | str) -> list[str]:
    """The numbers in a row's line, as they are shown. Input data has lines like `in_a`."""
    script = "return [...document.querySelectorAll(arguments[0])].map(cell => cell.textContent)"
    numbers: list[str] = evaluated(driver, script, f"#r-{row} .vals b[data-i]")
    return numbers


def rows(driver: WebDriver) -> list[int]:
    """The ids of the rows whose lines are drawn, from above to below."""
    script = """return [...document.querySelectorAll("#space > .row")].filter(line => /^r-\\d+$/.test(line.id))
        .sort((a, b) => a.top - b.top).map(line => Number(line.id.slice(2)))"""
    ids: list[int] = evaluated(driver, script)
    return ids


def is_at_rest(driver: WebDriver) -> bool:
    """Whether all rows are settled, and all that is in view is drawn."""
    return bool(evaluated(driver, "return Boolean(window.pevudlo) && pevudlo.isAtRest()"))


def resize(driver: WebDriver, width: int, height: int) -> None:
    """Gives the page a window of this size."""
    size: Any = driver.execute_cdp_cmd  # type: ignore[attr-defined]
    is_phone = width < 500
    size(
        "Emulation.setDeviceMetricsOverride",
        {"width": width, "height": height, "deviceScaleFactor": 1, "mobile": is_phone},
    )


def press(driver: WebDriver, *keys: str) -> None:
    """Presses keys where the focus is."""
    driver.switch_to.active_element.send_keys(*keys)


def focus(driver: WebDriver, row: int | str) -> None:
    """Selects a row, or a line of input data like `in_a`."""
    script = "const [id] = arguments, {view} = pevudlo; document.querySelector('#list').focus();"
    script += "return [view.items.findIndex(item => `r-${String(item.id).replace(/\\W/g, '_')}` === id), view.selected]"
    wanted, now = evaluated(driver, script, f"r-{row}")
    key = Keys.ARROW_DOWN if wanted > now else Keys.ARROW_UP
    for _ in range(abs(wanted - now)):
        press(driver, key)
        if evaluated(driver, "return pevudlo.view.selected") == wanted:
            break


def command(driver: WebDriver, line: str) -> None:
    """Sends a command by the line for commands."""
    evaluated(driver, "document.querySelector('#list').focus()")
    press(driver, ":")
    field = one(driver, "#line")
    field.clear()
    field.send_keys(line, Keys.ENTER)


def complaints(driver: WebDriver) -> list[str]:
    """What pages complained of since the last time: errors of scripts, and what their policy forbids."""
    log: Any = driver.get_log
    words = [entry["message"] for entry in log("browser")]
    return [text for text in words if "Content Security" in text or "Uncaught" in text]
