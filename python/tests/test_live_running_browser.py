"""A live page in headless Chromium while rows run: undo, the history, why a row is unsettled, who edits, and marks."""

from __future__ import annotations

import json
from collections.abc import Iterator
from pathlib import Path
from typing import Any

import pytest
from browsers import command as send
from browsers import PATIENCE, complaints, evaluated, focus, is_at_rest, one, press, until, values
from live_tabs import serve
from pages import script_of
from selenium.webdriver.common.by import By
from selenium.webdriver.common.keys import Keys
from selenium.webdriver.remote.webdriver import WebDriver
from test_live_running import SLOW, SLOW_ROWS

from pevudlo import Machine
from pevudlo.live.server import Server

LINES = ["set S 4", "field a S 8", "field b S 8", "field c S 8", "input a 0 1 2 3 4"]
ROWS = ["insert end u-move-1L b a 8", "insert end u-move-1L c b 8"]


@pytest.fixture
def server(libparis: Path) -> Iterator[Server]:
    yield from serve([*LINES, *ROWS])


@pytest.fixture
def slow(libparis: Path) -> Iterator[Server]:
    yield from serve(SLOW)


@pytest.fixture
def shared(libparis: Path) -> Iterator[Server]:
    yield from serve([*LINES, *ROWS], is_shared=True)


def opened(driver: WebDriver, server: Server) -> None:
    driver.get(server.address)
    until(driver, lambda: is_at_rest(driver))


def shows(driver: WebDriver, wanted: list[str], row: int = 2) -> None:
    """Waits until a row has these numbers."""
    until(driver, lambda: values(driver, row) == wanted)


def has_undo(driver: WebDriver, line: str) -> None:
    """Waits until this edit would be taken back."""
    until(driver, lambda: one(driver, "#undo").get_attribute("title") == f"undo: {line}")


def test_rows_settle_by_themselves_and_edits_are_taken_back(browser: WebDriver, server: Server) -> None:
    opened(browser, server)
    assert "all 2 rows settled" in one(browser, "#state").text
    shows(browser, ["1", "2", "3", "4"])
    send(browser, "input a 0 9")
    shows(browser, ["9", "2", "3", "4"])
    has_undo(browser, "input a 0 9")
    one(browser, "#undo").click()
    shows(browser, ["1", "2", "3", "4"])
    assert one(browser, "#redo").get_attribute("title") == "redo: input a 0 9"
    evaluated(
        browser,
        "const it = document.querySelector('#history'); it.value = 1;"
        "it.dispatchEvent(new Event('change', {bubbles: true}))",
    )
    shows(browser, ["9", "2", "3", "4"])
    assert complaints(browser) == []


def test_why_a_row_is_unsettled_and_no_number_stands_there(browser: WebDriver, server: Server) -> None:
    opened(browser, server)
    focus(browser, 2)
    press(browser, " ")
    until(browser, lambda: one(browser, "#go").text == "Go on")
    send(browser, "input a 0 9")
    until(browser, lambda: "2 of 2 rows unsettled, stopped" in one(browser, "#state").text)
    assert [one(browser, f"#r-{row} .pend").text for row in (1, 2)] == ["stopped", "waits for row 1"]
    assert [values(browser, row) for row in (1, 2)] == [[], []] and one(browser, "#r-1 .st").text == "○"
    told = "row 2 reads b of row 1, row 1 is unsettled since the edit input a 0 9"
    until(browser, lambda: told in one(browser, "#inspect p.open").text)
    assert browser.find_elements(By.CSS_SELECTOR, "#r-1.made")
    one(browser, "#go").click()
    shows(browser, ["9", "2", "3", "4"])
    assert complaints(browser) == []


def test_one_tab_edits_and_another_asks_for_it(browser: WebDriver, server: Server) -> None:
    opened(browser, server)
    send(browser, "input a 0 9")
    has_undo(browser, "input a 0 9")
    browser.switch_to.new_window("tab")
    opened(browser, server)
    until(browser, lambda: "Another tab edits" in one(browser, "#notice").text)
    send(browser, "input a 0 8")
    until(browser, lambda: "Another tab edits" in one(browser, "#refused").text)
    one(browser, "[data-do=pen]").click()
    until(browser, lambda: not one(browser, "#notice").is_displayed())
    send(browser, "input a 0 7")
    has_undo(browser, "input a 0 7")
    browser.close()
    browser.switch_to.window(browser.window_handles[0])
    until(browser, lambda: "Another tab edits" in one(browser, "#notice").text)


WATCH = """
const numbers = [...document.querySelectorAll("#space .row")].filter(row =>
  pevudlo.view.program.unsettled.has(row.item) && row.querySelector(".vals b[data-i], .vals canvas, .ends"));
window.wrong = (window.wrong || 0) + (pevudlo.isDrawn() ? numbers.length : 0);
window.looked = (window.looked || 0) + pevudlo.isDrawn();
window.most = Math.max(window.most || 0, pevudlo.view.program.unsettled.size);
"""
"""Looks whether an unsettled row has a number, behind each frame that shows what the page knows by then."""


def test_edits_go_on_while_slow_rows_run_and_no_unsettled_row_has_a_number(browser: WebDriver, slow: Server) -> None:
    opened(browser, slow)
    evaluated(browser, f"const look = () => {{ {WATCH} requestAnimationFrame(() => setTimeout(look)); }}; look();")
    for number in range(8):
        send(browser, f"input a 5 {number}")
        send(browser, f"input x 2 {number}")
        has_undo(browser, f"input x 2 {number}")
    until(browser, lambda: is_at_rest(browser))
    assert evaluated(browser, "return wrong") == 0
    assert evaluated(browser, "return looked") > 20 and evaluated(browser, "return most") > 1
    press(browser, Keys.ESCAPE)
    evaluated(browser, "document.querySelector('#list').focus()")
    press(browser, Keys.END)
    shows(browser, ["0", "0", "7", "0"], SLOW_ROWS + 1)
    session = slow.session
    with Machine(library=True) as fresh:
        for line in session.script().splitlines():
            fresh.raw(line)
        fresh.raw("settle")
        assert fresh.raw("show c15 end") == session.book.ask("show c15 end")
    assert complaints(browser) == []


def test_who_edits_a_row_that_another_tab_changes_is_told_both_texts(browser: WebDriver, shared: Server) -> None:
    opened(browser, shared)
    focus(browser, 2)
    press(browser, Keys.ENTER)
    until(browser, lambda: browser.switch_to.active_element.tag_name == "input")
    field = browser.switch_to.active_element
    field.clear()
    field.send_keys("u-move-constant-1L c 6 8")
    first = browser.current_window_handle
    browser.switch_to.new_window("tab")
    opened(browser, shared)
    send(browser, "replace 2 u-move-constant-1L c 5 8")
    shows(browser, ["5"] * 4)
    browser.close()
    browser.switch_to.window(first)
    told = "This row was changed meanwhile, and is now u-move-constant-1L c 5 8. Enter replaces it."
    until(browser, lambda: one(browser, "#r-2 .told").text == told)
    field = one(browser, "#r-2 .edit input")
    assert field.get_attribute("value") == "u-move-constant-1L c 6 8"
    field.send_keys("\n")
    shows(browser, ["6"] * 4)
    assert complaints(browser) == []


# Values and marks

RANDOM = """
const [seed0, edits, done] = arguments;
let seed = seed0;
const random = n => (seed = (seed * 1103515245 + 12345) % 2147483648) % n;
const {view, act} = pevudlo, program = view.program, list = document.querySelector("#list");
const pause = ms => new Promise(go => setTimeout(go, ms));
const rest = async () => {
  for (let k = 0; k < 800; k++) { await pause(12); if (pevudlo.isAtRest() && view.link.told <= view.link.seen) return; }
  throw new Error("never at rest");
};
const fresh = async () => {
  const looks = [], found = new Map();
  for (const key of program.fields.keys()) looks.push([key, 0, 0, 0]);
  for (const id of program.ids) {
    for (const key of program.work(program.text.get(id)).writes) looks.push([key, id, 0, 0]);
  }
  for (let i = 0; i < looks.length; i += 200) {
    const part = looks.slice(i, i + 200), came = await view.link.look(part);
    came.forEach((value, j) => found.set(`${part[j][0]}@${part[j][1]}`, value.numbers));
  }
  return found;
};
const run = async () => {
  await rest();
  const texts = [...new Set(program.text.values())], told = {values: 0, marks: 0, refused: 0, wrong: []};
  let before = await fresh(), seen = program.edits;
  for (let k = 0; k < edits && told.wrong.length < 5; k++) {
    const id = program.ids[random(program.ids.length)], key = program.given[random(program.given.length)];
    const what = random(10), wrong = (...words) => told.wrong.push([k, program.line, ...words]);
    if (!random(3)) list.scrollTop = random(list.scrollHeight);
    if (what < 2) await act(random(2) ? "undo" : "redo");
    else {
      const line = what < 5 ? `input ${key} ${random(program.processors(key))} ${random(2)}`
        : what < 8 ? `replace ${id} ${texts[random(texts.length)]}`
        : what < 9 && program.ids.length > 4 ? `delete ${id}` : `insert after ${id} ${texts[random(texts.length)]}`;
      if ((await view.link.edit(line)).refused) told.refused++;
    }
    await rest();
    const now = await fresh();
    for (const [row, byKey] of program.values) for (const [key, value] of byKey) {
      if (value.isStale || value.isStrip) continue;
      const name = `${key}@${row}`, its = now.get(name), was = before.get(name);
      if (!its) continue;
      told.values++;
      const isSame = its.length === value.numbers.length && its.every((n, i) => n === value.numbers[i]);
      if (!isSame) wrong("value", name);
      if (program.edits === seen) continue;
      for (let i = 0; i < its.length; i++) {
        const isMarked = Boolean(value.changed?.has(i));
        told.marks += isMarked;
        // (what has a mark is another, and what is seen to be another has one)
        if (was && isMarked && was[i] === its[i]) wrong("mark", name, i);
        if (was && value.was && !isMarked && was[i] !== its[i]) wrong("no mark", name, i);
      }
    }
    if (program.edits !== seen) { before = now; seen = program.edits; }
  }
  return told;
};
run().then(told => done(JSON.stringify(told)), error => done(JSON.stringify({wrong: [String(error.stack || error)]})));
"""
"""Random edits, undo and scrolls. Each value that the page holds is compared with what is answered afresh, and marks
with the values before the edit."""
TWELVE = ["set S 8", "set T 4x4", "field a S 8", "field b S 8", "field c S 16", "field m T 4", "field n T 1"]
TWELVE += ["input a 0 1 2 3 4 5 6 7 8", "input b 0 8 7 6 5 4 3 2 1", "input n 3 1 0 1 1"]
TWELVE += [
    f"insert end {text}"
    for text in (
        *("u-add-3-1L c a b 8", "u-gt-1L a b 8", "logand-context-with-test S", "u-move-1L c a 8", "set-context S"),
        *("scan-with-u-add-1L a a 0 8 upward inclusive none", "send-1L c a b 8 none", "u-max-3-1L b a c 8"),
        *(
            "u-move-2L m n 4 1",
            "get-from-news-1L m m 0 upward 4",
            "u-add-3-1L m m m 4",
            "reduce-with-u-add-1L m m 1 4 0",
        ),
    )
]


@pytest.mark.parametrize("seed", [1, 2])
@pytest.mark.parametrize("program", ["twelve", "life"])
def test_values_and_marks_are_right_behind_random_edits(
    browser: WebDriver, libparis: Path, program: str, seed: int
) -> None:
    for server in serve(TWELVE if program == "twelve" else script_of(program), is_shared=True):
        opened(browser, server)
        run: Any = browser.execute_async_script
        browser.set_script_timeout(120)
        told = json.loads(run(RANDOM, seed, 30))
        assert told["wrong"] == []
        assert told["values"] > 300 and told["marks"] > 20 and told["refused"] < 20, told


MEANWHILE = """
const [line, done] = arguments, {link} = pevudlo.view, {wire} = link, hear = link.hear, heard = [];
const wait = time => new Promise(go => setTimeout(go, time)), get = wire.get.bind(wire), post = wire.post.bind(wire);
// What is new is asked for once the edit is made, and the answer to the edit comes last.
wire.get = async (...words) => { await wait(100); return get(...words); };
wire.post = async (...words) => { const answer = await post(...words); await wait(500); return answer; };
link.hear = news => { heard.push(news.since === link.seen); hear.call(link, news); };
link.told = link.seen + 1;
const refreshed = link.refresh(), edited = link.edit(line);
Promise.all([refreshed, edited]).then(async () => {
  delete wire.get;
  delete wire.post;
  delete link.hear;
  done(heard);
});
"""


@pytest.fixture(params=["socket", "requests"])
def wired(browser: WebDriver, request: pytest.FixtureRequest) -> Iterator[WebDriver]:
    """The browser, where pages have a socket, and where they have requests alone."""
    run: Any = browser.execute_cdp_cmd  # type: ignore[attr-defined]
    script = "delete window.WebSocket" if request.param == "requests" else ""
    added = run("Page.addScriptToEvaluateOnNewDocument", {"source": script})
    yield browser
    run("Page.removeScriptToEvaluateOnNewDocument", added)


def test_what_is_new_comes_with_the_edit_where_both_are_asked_for(wired: WebDriver, server: Server) -> None:
    browser = wired
    opened(browser, server)
    browser.set_script_timeout(PATIENCE)
    heard: list[bool] = browser.execute_async_script(MEANWHILE, "input a 0 7")
    assert heard[0] and len(heard) == 1
    until(browser, lambda: is_at_rest(browser))
    assert evaluated(browser, "return pevudlo.view.program.line") == "input a 0 7"


DELAY = """
const {wire} = pevudlo.view.link;
for (const name of ["get", "post"]) {
  const early = wire[name].bind(wire);
  wire[name] = async (...words) => {
    const answer = await early(...words);
    await new Promise(go => setTimeout(go, Math.random() * 60));
    return answer;
  };
}
"""


def test_answers_that_come_late_and_swapped_leave_the_page_as_the_program_is(wired: WebDriver, libparis: Path) -> None:
    browser = wired
    for server in serve(TWELVE, is_shared=True):
        opened(browser, server)
        evaluated(browser, DELAY)
        for number in range(12):
            server.session.run(f"input a {number % 8} {number}")
            evaluated(browser, f"pevudlo.view.link.edit('input b {number % 8} {number + 1}')")
        until(browser, lambda: len(server.session.taken) == len(TWELVE) + 24)
        behind = "return pevudlo.view.link.seen"
        until(browser, lambda: is_at_rest(browser) and bool(evaluated(browser, behind) == server.session.version))
        held = "return [...pevudlo.view.program.values.get(1).get('c').numbers]"
        wanted = server.session.book.ask("show c after 1")[0].split(" ")[1:]
        assert evaluated(browser, held) == list(map(int, wanted)) and values(browser, 1) == wanted
