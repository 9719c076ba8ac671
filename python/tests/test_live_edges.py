"""A live page where people click elsewhere, edit one row in two tabs, have rows refused, or have another window."""

from __future__ import annotations

from collections.abc import Iterator
from pathlib import Path
from typing import Any

import pytest
from browsers import complaints, evaluated, focus, is_at_rest, one, press, resize, until, values
from live_tabs import serve
from pages import GALLERY, answers, script_of
from selenium.webdriver.common.by import By
from selenium.webdriver.common.keys import Keys
from selenium.webdriver.remote.webdriver import WebDriver

from pevudlo.live.server import Server

WIDE = ["set S 32", "field a S 16", "field b S 16", "input a 0 " + " ".join(str(60000 + place) for place in range(32))]
WIDE += ["insert end u-move-1L b a 16", "insert end u-lt-1L a b 16", "settle"]
COLLISION = ["set S 4", "field a S 8", "field c S 8", "insert end send-1L c a a 8 none", "insert end set-test S"]
MANY = ["set S 8", "field a S 8", "field b S 8", "field c S 8", "input a 0 3 1 4 1 5 9 2 6"]
MANY += [f"insert end u-{('add', 'max')[row % 2]}-3-1L {'bc'[row % 2]} a {'cb'[row % 2]} 8" for row in range(60)]
LARGE = ["set S 256x256", "field i S 16", "field s S 16", "insert end my-send-address-1L i 16"]
LARGE += ["insert end u-add-3-1L s s i 16" for _ in range(80)]


@pytest.fixture
def served(request: pytest.FixtureRequest, libparis: Path) -> Iterator[Server]:
    """A server of a gallery program, or of lines."""
    yield from serve(script_of(request.param) if isinstance(request.param, str) else request.param)


@pytest.fixture
def sized(browser: WebDriver) -> Iterator[WebDriver]:
    """The browser, whose window gets its size back."""
    yield browser
    run: Any = browser.execute_cdp_cmd  # type: ignore[attr-defined]
    run("Emulation.clearDeviceMetricsOverride", {})
    run("Emulation.setEmulatedMedia", {"features": []})


def opened(driver: WebDriver, server: Server) -> None:
    driver.get(server.address)
    until(driver, lambda: is_at_rest(driver))


def open_number(driver: WebDriver, place: int, text: str) -> None:
    """Types a number into a cell of `v`."""
    one(driver, f"#r-in_v [data-i='{place}']").click()
    until(driver, lambda: len(driver.find_elements(By.CSS_SELECTOR, ".num")) == 1)
    one(driver, ".num").send_keys(Keys.CONTROL + "a")
    one(driver, ".num").send_keys(text)


def tap(driver: WebDriver, selector: str) -> None:
    """Clicks, once more where what was to be clicked is drawn anew meanwhile."""
    until(driver, lambda: one(driver, selector).click() is None)  # type: ignore[func-returns-value]


# Cells


@pytest.mark.parametrize("served", ["sum-by-scan"], indirect=True)
def test_a_number_is_given_when_one_clicks_elsewhere(browser: WebDriver, served: Server) -> None:
    lines = script_of("sum-by-scan")
    opened(browser, served)
    open_number(browser, 2, "1000")
    one(browser, "#r-1 .instr").click()
    lines += ["input v 2 1000"]
    wanted = answers(lines + ["show v start"])[-1][0].split(" ")[1:]
    until(browser, lambda: values(browser, "in_v") == wanted)
    assert not browser.find_elements(By.CSS_SELECTOR, ".num")


@pytest.mark.parametrize("served", ["sum-by-scan"], indirect=True)
def test_a_wrong_number_stays_and_escape_drops_it(browser: WebDriver, served: Server) -> None:
    opened(browser, served)
    taken, before = list(served.session.taken), values(browser, "in_v")
    for text, reason in (("99999", "needs more than the 16 bits"), ("-5", "without a sign is wanted")):
        open_number(browser, 2, text)
        one(browser, "#state").click()
        until(browser, lambda: reason in one(browser, "#said").text)
        typed = one(browser, ".num")
        assert typed.get_attribute("value") == text and typed.get_attribute("aria-invalid") == "true"
        typed.send_keys(Keys.ESCAPE)
        until(browser, lambda: not browser.find_elements(By.CSS_SELECTOR, ".num"))
    assert values(browser, "in_v") == before and served.session.taken == taken


@pytest.mark.parametrize("served", ["sum-by-scan"], indirect=True)
def test_fields_that_were_given_nothing_are_shown_where_they_are_wanted(browser: WebDriver, served: Server) -> None:
    opened(browser, served)
    focus(browser, "rest")
    press(browser, Keys.ENTER)
    until(browser, lambda: values(browser, "in_total") == ["0"] * 8)


# Two tabs


SCAN = "scan-with-u-add-1L prefix v 0 16 upward inclusive none"
OTHER = "scan-with-u-max-1L prefix v 0 16 upward inclusive none"
LAST = "scan-with-u-min-1L prefix v 0 16 upward inclusive none"


def edit(driver: WebDriver, row: int) -> Any:
    """Opens the line of a row."""
    focus(driver, row)
    press(driver, Keys.ENTER)
    until(driver, lambda: driver.switch_to.active_element.tag_name == "input")
    return driver.switch_to.active_element


@pytest.mark.parametrize("served", ["sum-by-scan"], indirect=True)
def test_who_edits_a_row_later_is_told(browser: WebDriver, served: Server) -> None:
    opened(browser, served)
    editor = edit(browser, 1)
    assert editor.get_attribute("value") == SCAN
    served.session.run(f"replace 1 {OTHER}")
    told = f"This row was changed meanwhile, and is now {OTHER}. Enter replaces it."
    until(browser, lambda: one(browser, "#r-1 .told").text == told)
    editor.clear()
    editor.send_keys(LAST, Keys.ENTER)
    until(browser, lambda: served.session.taken[-1] == f"replace 1 {LAST}")
    until(browser, lambda: one(browser, "#r-1 .instr").text == LAST)


@pytest.mark.parametrize("served", ["sum-by-scan"], indirect=True)
def test_what_is_typed_into_a_row_that_goes_is_shown(browser: WebDriver, served: Server) -> None:
    opened(browser, served)
    editor = edit(browser, 1)
    editor.clear()
    editor.send_keys("set-test S")
    served.session.run("delete 1")
    until(browser, lambda: "Row 1 was deleted meanwhile. What was typed: set-test S" in one(browser, "#gone").text)


# Rows that are refused for their data


@pytest.mark.parametrize("served", [COLLISION], indirect=True)
def test_a_refused_row_is_told(browser: WebDriver, served: Server) -> None:
    opened(browser, served)
    until(browser, lambda: "1 row is refused for its data" in one(browser, "#notice").text)
    words = "two messages meet at processor 0: send-with-u-add-1L combines them"
    assert words in one(browser, "#notice").text and one(browser, "#r-1 .why").text == words
    assert one(browser, "#r-1 .st").get_attribute("aria-label") == "refused for its data"
    assert values(browser, 1) == [] and one(browser, "#r-1 .st").text == "✕"
    served.session.run("replace 1 send-with-u-add-1L c a a 8 none")
    until(browser, lambda: not one(browser, "#notice").is_displayed() and values(browser, 1) == ["0"] * 4)


# The pointer alone


@pytest.mark.parametrize("served", [MANY], indirect=True)
def test_rows_are_edited_without_keys_on_a_phone(sized: WebDriver, served: Server) -> None:
    resize(sized, 390, 844)
    opened(sized, served)

    def act(row: int, name: str) -> None:
        """Opens the panel of a row by two taps, and presses a button there."""
        tap(sized, f"#r-{row} .instr")
        until(sized, lambda: bool(sized.find_elements(By.CSS_SELECTOR, f"#r-{row}.sel")) and is_at_rest(sized))
        tap(sized, f"#r-{row} .instr")
        until(sized, lambda: one(sized, f"#inspect [data-act={name}]").is_displayed())
        tap(sized, f"#inspect [data-act={name}]")

    act(4, "delete")
    until(sized, lambda: 4 not in served.session.board.texts)
    act(3, "new")
    until(sized, lambda: sized.switch_to.active_element.tag_name == "input")
    press(sized, "set-test S", Keys.ENTER)
    until(sized, lambda: served.session.board.rows[3] == 61)
    act(5, "edit")
    until(sized, lambda: sized.switch_to.active_element.tag_name == "input")
    assert sized.switch_to.active_element.get_attribute("value") == served.session.board.texts[5]


# Windows

SIDEWAYS = "return document.documentElement.scrollWidth - innerWidth"
LINES = """
const ruler = document.querySelector("#ruler"), list = document.querySelector("#list").getBoundingClientRect();
const top = list.top + (ruler.offsetParent ? 22 : 0);
return [...document.querySelectorAll("#space .row")].map(row => row.getBoundingClientRect())
  .filter(box => box.top >= top - 1 && box.bottom <= list.bottom + 1).length"""
CONTRAST = """
const light = colour => colour
  .map(part => (part /= 255) <= .03928 ? part / 12.92 : ((part + .055) / 1.055) ** 2.4)
  .reduce((sum, part, i) => sum + part * [.2126, .7152, .0722][i], 0);
const of = text => { const parts = text.match(/[\\d.]+/g).map(Number), k = text.startsWith("color(") ? 255 : 1;
  return [parts[0] * k, parts[1] * k, parts[2] * k, parts[3] ?? 1]; };
const behind = element => { for (; element; element = element.parentElement) {
  const colour = of(getComputedStyle(element).backgroundColor); if (colour[3] > .99) return colour; }
  return [255, 255, 255]; };
const low = [], walk = document.createTreeWalker(document.body, NodeFilter.SHOW_TEXT); let count = 0;
while (walk.nextNode()) {
  const text = walk.currentNode, element = text.parentElement;
  if (!text.data.trim() || !element.getClientRects().length) continue;
  if (element.closest("script, style, .hid, [hidden], :disabled, dialog, #probe")) continue;
  const colour = of(getComputedStyle(element).color);
  if (!colour[3]) continue;
  count++;
  const [one, other] = [light(colour.slice(0, 3)), light(behind(element).slice(0, 3))];
  const contrast = (Math.max(one, other) + .05) / (Math.min(one, other) + .05);
  if (contrast < 4.5) low.push(`${element.className} ${contrast.toFixed(2)} ${text.data.slice(0, 12)}`);
}
return [count, low];"""
SIZES = {390: (844, 14), 768: (1024, 36), 1280: (800, 28), 1440: (900, 34), 1920: (1080, 42)}


@pytest.mark.parametrize("theme", ["light", "dark"])
@pytest.mark.parametrize("served", [MANY], indirect=True)
def test_windows_of_each_size_have_many_lines_and_texts_that_stand_out(
    sized: WebDriver, served: Server, theme: str
) -> None:
    run: Any = sized.execute_cdp_cmd  # type: ignore[attr-defined]
    run("Emulation.setEmulatedMedia", {"features": [{"name": "prefers-color-scheme", "value": theme}]})
    for width, (height, lines) in SIZES.items():
        resize(sized, width, height)
        opened(sized, served)
        served.session.run(f"input a 2 {width % 200}")
        until(sized, lambda: is_at_rest(sized) and bool(sized.find_elements(By.CSS_SELECTOR, "#r-1 b.new")))
        assert evaluated(sized, "return document.documentElement.dataset.theme") == theme
        assert evaluated(sized, SIDEWAYS) <= 0 and evaluated(sized, LINES) >= lines, width
        count, low = evaluated(sized, CONTRAST)
        assert count > 100 and low == [], width


@pytest.mark.parametrize("served", [WIDE], indirect=True)
def test_wide_input_data_is_edited_at_390_pixels(sized: WebDriver, served: Server) -> None:
    resize(sized, 390, 844)
    opened(sized, served)
    for place in (0, 31):
        one(sized, f"#r-in_a [data-i='{place}']").click()
        until(sized, lambda: len(sized.find_elements(By.CSS_SELECTOR, ".num")) == 1)
        typed = one(sized, ".num")
        assert typed.get_attribute("value") == str(60000 + place)
        left, right = evaluated(
            sized, "const b = arguments[0].getBoundingClientRect(); return [b.left, b.right]", typed
        )
        assert left >= 0 and right <= 390 and evaluated(sized, SIDEWAYS) <= 0
        typed.send_keys(Keys.ESCAPE)
        until(sized, lambda: not sized.find_elements(By.CSS_SELECTOR, ".num"))


IN_LINE = """return [...document.querySelectorAll("#space .row")].map(row => [row.style.getPropertyValue("--d"),
  [...row.querySelectorAll(".vals > b.v")].map(cell => Math.round(cell.getBoundingClientRect().right))])"""


@pytest.mark.parametrize("served", [MANY], indirect=True)
def test_numbers_stand_below_each_other_in_each_base(browser: WebDriver, served: Server) -> None:
    opened(browser, served)
    one(browser, "#density").click()
    for _ in range(4):
        one(browser, "#base").click()
        until(browser, lambda: is_at_rest(browser))
        columns: dict[tuple[str, int], list[int]] = {}
        for digits, rights in evaluated(browser, IN_LINE):
            if rights:
                assert columns.setdefault((digits, len(rights)), rights) == rights
        assert columns


CARET = """const input = document.querySelector(".edit input"), mark = document.querySelector(".edit .mark");
if (!input || mark.hidden) return null;
const at = mark.textContent.length - 1, range = document.createRange();
const paint = document.createElement("canvas").getContext("2d");
range.setStart(mark.firstChild, at); range.setEnd(mark.firstChild, at + 1);
paint.font = getComputedStyle(input).font;
const wide = paint.measureText(input.value.slice(0, at)).width;
return [input.value.slice(at), range.getBoundingClientRect().left - input.getBoundingClientRect().left - 4 - wide];"""
REFUSALS = {
    "u-mul-3-1L c b a 8": "u-mul-3-1L c b a 8",
    "u-add-3-1L c a 5 8": "5 8",
    "u-add-3-1L c a b": "",
    "u-add-3-1L c a b 8 8": "8",
    "u-add-3-1L cc a b 8": "cc a b 8",
    "u-add-3-1L c a b 0x8": "0x8",
    "set-context T": "T",
    "send-1L b a c 8 nobody": "nobody",
    "scan-with-u-add-1L b a 0 8 left inclusive none": "left inclusive none",
    "u-add-3-1L  c a b 8": " c a b 8",
    "u-add-3-1L c é b 8": "é b 8",
}


@pytest.mark.parametrize("served", [MANY], indirect=True)
def test_carets_of_refusals_stand_below_their_letters(browser: WebDriver, served: Server) -> None:
    opened(browser, served)
    for text, rest in REFUSALS.items():
        editor = edit(browser, 3)
        evaluated(browser, "arguments[0].value = ''", editor)
        editor.send_keys(text, Keys.ENTER)
        until(browser, lambda: bool(editor.get_attribute("aria-invalid") == "true"))
        until(browser, lambda: bool(evaluated(browser, CARET)))
        found, off = evaluated(browser, CARET)
        assert (found, abs(off) < 0.5) == (rest, True), (text, found, off)
        editor.send_keys(Keys.ESCAPE)
        until(browser, lambda: not browser.find_elements(By.CSS_SELECTOR, ".edit"))


EDITED = """const line = document.querySelector("#r-3"), box = part => line.querySelector(part).getBoundingClientRect();
const number = box(".no"), field = box("input"), told = box(".told");
const cover = Math.min(number.bottom, field.bottom) - Math.max(number.top, field.top);
return [line.querySelector(".no").textContent, cover > 0 && field.left < number.right,
  line.getBoundingClientRect().bottom - told.bottom, innerWidth - field.right];"""


@pytest.mark.parametrize("served", [MANY], indirect=True)
def test_a_line_that_is_edited_has_its_number_its_caret_and_the_whole_reason_in_each_window(
    sized: WebDriver, served: Server
) -> None:
    opened(sized, served)
    for width in (1440, 1024, 768, 520, 390):
        resize(sized, width, 900)
        until(sized, lambda: is_at_rest(sized))
        editor = edit(sized, 3)
        evaluated(sized, "arguments[0].value = ''", editor)
        editor.send_keys("u-add-3-1L one other third 8", Keys.ENTER)
        until(sized, lambda: bool(evaluated(sized, CARET)))
        found, off = evaluated(sized, CARET)
        assert (found, abs(off) < 0.5) == ("one other third 8", True), (width, found, off)
        number, is_hidden, below, right = evaluated(sized, EDITED)
        assert (number, is_hidden) == ("3", False) and below >= 0 and right >= 0, width
        assert evaluated(sized, SIDEWAYS) <= 0, width
        editor.send_keys(Keys.ESCAPE)
        until(sized, lambda: not sized.find_elements(By.CSS_SELECTOR, ".edit"))


@pytest.mark.parametrize("served", [LARGE], indirect=True)
def test_large_sets_are_strips_of_which_those_in_view_are_asked_for(browser: WebDriver, served: Server) -> None:
    opened(browser, served)
    shown = "return [...document.querySelectorAll('#space .row')]"
    shown += ".map(row => [row.item, row.querySelector('.ends')?.textContent])"
    until(browser, lambda: all(dict(evaluated(browser, shown)).get(row) for row in (1, 2, 3)))
    ends = dict(evaluated(browser, shown))
    assert ends[1] == "0 … 65535" and ends[2] == "0 … 65535" and "0" in ends[3] and 80 not in ends
    assert evaluated(browser, "return pevudlo.view.program.values.size") < 60
    assert evaluated(browser, "return document.querySelectorAll('*').length") < 1200
    press(browser, Keys.END)
    until(browser, lambda: is_at_rest(browser) and 81 in dict(evaluated(browser, shown)))
    assert dict(evaluated(browser, shown))[81]


@pytest.mark.parametrize("served", GALLERY, indirect=True)
def test_programs_of_the_gallery_are_shown_as_the_program_answers(browser: WebDriver, served: Server) -> None:
    """Of each row whose numbers stand in its line."""
    opened(browser, served)
    lines = [line for line in served.session.script().splitlines() if line and not line.startswith("#")]
    seen = {row: values(browser, row) for row in served.session.board.rows[:40]}
    looks = {row: f"show {main_key(served, row)} after {row}" for row, numbers in seen.items() if numbers}
    replies = answers([*lines, "settle", *looks.values()])[-len(looks) :] if looks else []
    for row, (reply,) in zip(looks, replies):
        assert seen[row] == reply.split(" ")[1:], row


def main_key(server: Server, row: int) -> str:
    """The key whose numbers stand in a row's line."""
    keys = server.session.board.keys_written(server.session.board.texts[row])
    fields = [key for key in keys if "." not in key]
    return [*fields, *(key for key in keys if key.split(".")[-1] not in ("carry", "overflow")), *keys][0]


def test_the_browser_complained_of_nothing(browser: WebDriver) -> None:
    assert complaints(browser) == []
