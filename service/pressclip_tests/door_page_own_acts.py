"""Acts on the door's page in a real browser, each over a door of its own: alerts, tokens, keys, and what everyone needs."""

from __future__ import annotations

from pathlib import Path
from typing import TYPE_CHECKING, Any, Callable

from pressclip_service.engine import command_of

from .door_page_acts import ARTICLES, QUERY, TEXT, write
from .door_runs import Door
from .grid_runs import free_port
from .judge import folder, need

if TYPE_CHECKING:
    from .door_page_browser import Browser

OwnAct = Callable[["Browser"], None]
CHECKS = Path(__file__).with_name("door_page_checks.js").read_text()
WIDTHS = (1_200, 768, 360)
TOKENS = {"read": "a-token-that-reads-1234", "write": "a-token-that-writes-1234"}


def alerts_are_shown_as_they_come(browser: Browser) -> None:
    """With marked excerpts, newest first; held back where that is wished; and each leads to its query and article."""
    with Door() as door:
        door.put("tea-prices", "+tea +pric*")
        door.put("title", "title:prices")
        browser.open(door.address)
        need(door.ask("POST", "/articles", ARTICLES[0]).status == 200, "an article is refused")
        browser.until(lambda: len(browser.all("#alert-list > li")) == 1, "no alert is shown")
        need(browser.texts("#alert-list .chip") == ["tea-prices", "title"], f"{browser.texts('#alert-list .chip')}")
        need(browser.texts("#alert-list [data-field=text] mark") == ["Tea", "prices", "tea"], "the words are not marked")
        need(browser.text("#alert-list .headline") == "Tea prices rise", "the headline is not shown")
        browser.until(lambda: browser.run("return document.querySelector('#announcer').textContent") == "1 new alert",
                      "a screen reader is not told")
        browser.shoot("alerts")
        browser.click("#pause")
        for number in range(7):
            door.match(f"b{number}", "tea price")
        browser.shows("#held-back", "Show 7 new alerts")
        need(len(browser.all("#alert-list > li")) == 1, "alerts are not held back")
        browser.click("#held-back")
        browser.until(lambda: browser.texts("#alert-list .headline")[:2] == ["b6", "b5"], "they do not come back")
        browser.run("document.querySelector('#alert-list > li:last-child .chip').scrollIntoView()")
        browser.click("#alert-list > li:last-child .chip")
        browser.shows("#write-heading", "tea-prices")
        browser.shows("#verdict", "Holds: 3 words marked (Tea, prices, tea).")


def excerpts_end_with_whole_words(browser: Browser) -> None:
    """Of the 60 characters behind the word that holds, the six whole words of nine."""
    with Door() as door:
        door.put("tea", "tea")
        browser.open(door.address)
        door.match("a1", "abcdefgh " * 20 + "tea" + " abcdefgh" * 20)
        due = "…" + "abcdefgh " * 6 + "tea" + " abcdefgh" * 6 + "…"
        browser.until(lambda: browser.texts("#alert-list .excerpt") == [due], f"the excerpt is not {due}")


def many_alerts_are_shown_within_bounds(browser: Browser) -> None:
    """A thousand that come at once leave the newest hundred."""
    with Door() as door:
        door.put("tea", "tea")
        browser.open(door.address)
        for part in range(4):
            articles = [{"id": f"a{part * 250 + number}", "fields": {"text": "tea"}} for number in range(250)]
            need(door.ask("POST", "/articles", {"articles": articles}).status == 200, "articles are refused")
        browser.until(lambda: browser.texts("#alert-list .headline")[:1] == ["a999"], "the newest is not the first")
        names = browser.texts("#alert-list .headline")
        need(names == [f"a{number}" for number in range(999, 899, -1)], f"{len(names)} alerts: {names[:3]} to {names[-3:]}")


def texts_of_others_stay_texts(browser: Browser) -> None:
    """What looks like HTML, in ids, queries, articles and fields, is shown as it is, and nothing of it is done."""
    with Door() as door:
        evil = "<img src=x onerror=alert(1)><b>tea</b>"
        need(door.ask("POST", "/queries", {"queries": [{"id": evil, "query": "\"b tea\""}]}).status == 200, "refused")
        browser.open(door.address)
        door.match(evil, f"{evil} <script>alert(2)</script>")
        browser.until(lambda: browser.texts("#alert-list .headline") == [evil], "the article is not shown as it is")
        need(browser.texts("#query-list .name") == [evil], "the id is not shown as it is")
        need(not browser.all(".panes img") and not browser.all(".panes b"), "a text was taken as HTML")
        browser.click("#alert-list .chip")
        browser.shows("#write-heading", evil)


def alerts_that_came_before_are_shown(browser: Browser) -> None:
    """The last ones, when the page is opened."""
    with Door() as door:
        door.put("tea", "tea")
        for number in range(30):
            door.match(f"a{number}", "tea")
        browser.open(door.address)
        browser.until(lambda: browser.texts("#alert-list .headline") == [f"a{number}" for number in range(29, 9, -1)],
                      "not the last twenty are shown")


def a_page_that_nobody_sees_keeps_no_connection(browser: Browser) -> None:
    """And hears what it missed once it is seen again, each alert once."""
    with Door() as door:
        door.put("tea", "tea")
        browser.open(door.address)
        door.match("a1", "tea")
        browser.until(lambda: browser.texts("#alert-list .headline") == ["a1"], "no alert")
        for is_hidden, count in ((True, 0), (False, 1)):
            browser.run("""Object.defineProperty(document, "hidden", {value: arguments[0], configurable: true});
                document.dispatchEvent(new Event("visibilitychange"))""", is_hidden)
            door.match(f"more-{count}", "tea")
            browser.until(lambda: f"pressclip_listeners {count}.0" in door.ask("GET", "/metrics").text.decode(),
                          f"there are not {count} listeners")
        browser.until(lambda: browser.texts("#alert-list .headline") == ["more-1", "more-0", "a1"], "alerts are missing")


def the_page_goes_on_where_the_door_was_ended(browser: Browser) -> None:
    """It says so, hears the alerts of the next door at the same address, and tells that some may be missing."""
    with folder() as name:
        journal = str(Path(name) / "j")
        with Door("--journal", journal, port=free_port()) as door:
            door.put("tea", "tea")
            browser.open(door.address)
            browser.shows("#status-text", "Live")
            door.match("a1", "tea")
            browser.until(lambda: browser.texts("#alert-list .headline") == ["a1"], "no alert")
            door.process.kill()
            door.process.wait()
            browser.shows("#status-text", "Reconnecting")
            write(browser, "Siemens Energy")
            browser.shows("#fault", "The service does not answer.")
            need(not browser.find("#remarks").is_displayed(), "remarks without an answer")
            with Door("--journal", journal, port=door.port) as next_door:
                browser.shows("#status-text", "Live")
                browser.type(" wins")
                browser.has("#remarks", "A blank is read as OR")
                next_door.match("a2", "tea")
                browser.until(lambda: "a2" in browser.texts("#alert-list .headline"), "no alert of the next door")
                need(len(browser.all("#alert-list .gap")) == 1, "nobody says that alerts may be missing")


def a_link_of_another_site_leads_to_the_page(browser: Browser) -> None:
    """And to nothing else of the door."""
    with Door() as door:
        for path, text in (("/", "Write"), ("/queries", "a page of another origin may not do this")):
            browser.driver.get(f"data:text/html,<a href='{door.address}{path}'>go</a>")
            browser.click("a")
            browser.until(lambda: browser.run("return location.pathname") == path, "the link leads nowhere")
            browser.has("body", text)


def the_page_asks_for_a_token(browser: Browser) -> None:
    """Once, keeps it in the tab alone, asks again where it is a wrong one, and says what a token may not do."""
    with folder() as name:
        path = Path(name) / "tokens"
        path.write_text("".join(f"{role} {role}er {token}\n" for role, token in TOKENS.items()))
        path.chmod(0o600)
        with Door("--tokens", str(path)) as door:
            browser.open(door.address)
            browser.until(lambda: browser.all("#token[open]"), "no token is asked for")
            browser.shoot("token")
            browser.type("a-token-that-is-wrong")
            browser.press("enter")
            browser.has("#token-why", "does not know this token")
            browser.press("escape")
            browser.shows("#status-text", "A token is needed")
            browser.click("#sign-in")
            browser.type(TOKENS["read"])
            browser.press("enter")
            browser.shows("#status-text", "Live")
            write(browser, "tea")
            browser.has("#sentence", '"tea"')
            browser.click("#query-id")
            browser.type("q1")
            browser.press("enter")
            browser.has("#said", "role write")
            kept = browser.run("return [Object.values(sessionStorage), {...localStorage}, document.cookie]")
            need(kept == [[TOKENS["read"]], {}, ""], f"the token is kept elsewhere: {kept}")


def all_is_done_by_keys(browser: Browser) -> None:
    """A query is written, tried, saved, found, opened and watched without a pointer."""
    with Door() as door:
        need(door.ask("POST", "/articles", ARTICLES[0]).status == 200, "an article is refused")
        browser.open(door.address)
        browser.press("?")
        browser.until(lambda: browser.all("#keys[open]"), "no list of keys")
        browser.shoot("keys")
        browser.press("escape", "e")
        browser.type("+tea price*")
        browser.press("escape", "t")
        browser.type("Tea: the price")
        browser.shows("#verdict", "Holds: 2 words marked (Tea, price).")
        browser.press("tab", "tab")
        browser.press("escape", "n")
        browser.shows("#question-heading", "Leave without saving?")
        browser.press("enter")
        browser.until(lambda: not browser.all("dialog[open]"), "the question stays")
        browser.press("e")
        browser.until(lambda: browser.run("return document.activeElement.getAttribute('aria-label')") == "Query",
                      "the keyboard is not in the query's box")
        browser.press("tab")
        while browser.run("return document.activeElement.id") != "query-id":
            browser.press("tab")
        browser.type("tea-prices")
        browser.press_control("s")
        browser.has("#said", "Saved.")
        browser.press("escape", "/")
        browser.type("tea")
        browser.press("down")
        browser.until(lambda: browser.run("return document.querySelector('#announcer').textContent") == "1 query found",
                      "it is not found")
        need(browser.texts("#query-list .name") == ["tea-prices"], f"{browser.texts('#query-list .name')}")
        need(browser.run("return document.activeElement.dataset.id") == "tea-prices", "the list has no keyboard")
        door.match("a7", "tea")
        browser.until(lambda: browser.texts("#alert-list .headline")[:1] == ["a7"], "no alert")
        browser.press("a", "enter")
        browser.shows("#write-heading", "tea-prices")
        browser.press("escape", "p")
        browser.until(lambda: browser.find("#pause").get_attribute("aria-pressed") == "true", "nothing is held back")


def single_keys_can_be_turned_off(browser: Browser) -> None:
    """For those who speak to their machine, and it stays so."""
    with Door() as door:
        browser.open(door.address)
        browser.press("?")
        browser.click("#single-keys")
        browser.press("escape", "p")
        browser.driver.refresh()
        browser.shows("#status-text", "Live")
        browser.press("p")
        need(browser.find("#pause").get_attribute("aria-pressed") == "false", "the key still works")


def fill(door: Door) -> None:
    """Registers queries, and has articles come."""
    door.put("tea-prices", "+tea +pric*")
    door.put("strikes", "strike")
    for article in ARTICLES:
        need(door.ask("POST", "/articles", article).status == 200, "an article is refused")


def states(browser: Browser, door: Door) -> list[tuple[str, Callable[[], None]]]:
    """The states of the page that are looked at, each with what leads there from the one before."""

    def show(pane: str) -> None:
        browser.run("document.querySelector(`.tab[data-shows=${arguments[0]}]`).click()", pane)

    def long() -> None:
        show("write")
        browser.fill(QUERY, 'Siemens Energy AND (title:"green tea" OR [a TO b}) -' + "x" * 80)
        browser.has("#sentence", "must have")

    def tried() -> None:
        browser.pick("#pick", "Tea prices rise")
        browser.fill(QUERY, "tea -spam")
        browser.has("#verdict", "Holds")

    def refused() -> None:
        browser.fill(QUERY, "tea AND")
        browser.has("#fault", "missing")

    def never() -> None:
        browser.fill(QUERY, "-spam")
        browser.has("#flags", "No article")

    def alerted() -> None:
        show("alerts")
        before = len(browser.all("#alert-list > li"))
        need(door.ask("POST", "/articles", ARTICLES[0]).status == 200, "an article is refused")
        browser.until(lambda: len(browser.all("#alert-list > li")) > before, "no alert")

    def opened() -> None:
        show("queries")
        browser.run("document.querySelector('[data-id=tea-prices]').click()")
        browser.until(lambda: browser.all("#question[open]"), "no question")

    def saved() -> None:
        browser.click("#question-yes")
        browser.shows("#write-heading", "tea-prices")

    def keys() -> None:
        show("alerts")
        browser.run("document.querySelector('#show-keys').click()")

    return [("empty", lambda: show("write")), ("long", long), ("tried", tried), ("refused", refused), ("never", never),
            ("alerts", alerted), ("queries", lambda: show("queries")), ("question", opened),
            ("saved", saved), ("keys", keys)]


def everyone_can_read_and_work_the_page(browser: Browser) -> None:
    """Names, contrast, headings, sizes and the rest of the checks' rules in each state of the page, at three widths, in
    light and in dark colours."""
    with Door() as door:
        fill(door)
        for width in WIDTHS:
            browser.open(door.address, width)
            browser.until(lambda: browser.run("return document.querySelectorAll('#query-list li').length") == 2, "no list")
            for name, lead in states(browser, door):
                browser.size(width)
                lead()
                for is_dark in (False, True):
                    browser.size(width, is_dark=is_dark)
                    faults = browser.run(CHECKS)
                    browser.shoot(f"{name}-{width}-{'dark' if is_dark else 'light'}")
                    need(not faults, f"{name}, {width} wide, {'dark' if is_dark else 'light'}: {faults}")


# What is broken in the page, and the rule that has to see it.
BREAKS = (
    ("document.querySelector('label[for=query-id]').remove()", "a control has a name"),
    ("document.querySelector('#new-query').setAttribute('aria-label', 'Other')", "the name of a control has the text"),
    ("document.querySelector('#said').id = 'fault'", "an id is used once"),
    ("document.querySelector('#token-text').id = 'other'", "for leads to an element"),
    ("document.querySelector('h1').remove()", "there is one heading of level 1"),
    ("document.querySelector('main').append(document.createElement('h5'))", "headings leave out no level"),
    ("document.querySelector('.tabs').removeAttribute('aria-label')", "a landmark has a name"),
    ("document.body.append(Object.assign(document.createElement('p'), {textContent: 'x'}))", "all stands in a landmark"),
    ("document.querySelector('#query-list').append(Object.assign(document.createElement('p'), {textContent: 'x'}))",
     "a list has items alone"),
    ("document.querySelector('.save').setAttribute('aria-hidden', 'true')", "what is hidden from screen readers"),
    ("document.querySelector('#save-query').tabIndex = 3", "no tabindex is over 0"),
    ("document.documentElement.style.setProperty('--quiet', '#99a0a8')", "a text has contrast"),
    ("document.documentElement.style.setProperty('--edge', '#cccccc')", "the edge of a box has contrast"),
    ("document.querySelector('#save-query').style.cssText = 'min-height: 0; height: 20px; padding: 0'",
     "a control is large enough"),
    ("document.querySelector('#write').style.width = '1400px'", "nothing is wider than the page"),
    ("document.querySelector('main').replaceWith(document.createElement('div'))", "there is one main"),
)


def the_checks_see_what_is_broken(browser: Browser) -> None:
    """Each rule tells of a page that breaks it."""
    with Door() as door:
        fill(door)
        browser.open(door.address, 360)
        browser.until(lambda: browser.run("return document.querySelectorAll('#query-list li').length") == 2, "no list")
        browser.run("document.querySelectorAll('.pane').forEach((pane) => { pane.style.display = 'block'; })")
        need(browser.run(CHECKS) == [], "a whole page is told of")
        for script, rule in BREAKS:
            browser.run(script)
            faults = browser.run(CHECKS)
            need(any(fault.startswith(rule) for fault in faults), f"{rule!r} is not told: {faults}")


FOCUSED = """const node = document.activeElement;
    if (node === document.body) { return null; }
    const order = [...document.querySelectorAll("*")].indexOf(node), box = node.getBoundingClientRect();
    const shown = node.closest(".CodeMirror") ?? node, style = getComputedStyle(shown);
    return {order, name: node.id || node.dataset.id || node.getAttribute("aria-label") || node.textContent,
      top: box.top, bottom: box.bottom, isMarked: parseFloat(style.outlineWidth) >= 2 && style.outlineStyle !== "none"
        || style.boxShadow !== "none"}"""
REACHED = """return [...document.querySelectorAll("a[href], button, input, select, [role=textbox]")]
    .filter((node) => !node.closest("dialog") && node.checkVisibility({checkVisibilityCSS: true})).length"""


def the_keyboard_goes_through_all(browser: Browser) -> None:
    """Each control once, in the order of the page, with the place to be seen, and out again, also backwards."""
    with Door() as door:
        fill(door)
        for width in WIDTHS:
            browser.open(door.address, width)
            browser.until(lambda: browser.run("return document.querySelectorAll('#query-list li').length") == 2, "no list")
            write(browser, "Siemens Energy")
            browser.has("#remarks", "Warning")
            browser.run("document.activeElement.blur(); getSelection().removeAllRanges()")
            browser.run("document.querySelector('.skip').focus()")
            seen: list[dict[str, Any]] = [browser.run(FOCUSED)]
            count = browser.run(REACHED)
            for _ in range(count - 1):
                browser.press("tab")
                seen.append(browser.run(FOCUSED) or {"order": -1, "name": "nothing", "isMarked": False})
            orders = [one["order"] for one in seen]
            need(orders == sorted(set(orders)), f"{width} wide: the order is {[one['name'] for one in seen]}")
            unmarked = [one["name"] for one in seen if not one["isMarked"]]
            need(not unmarked, f"{width} wide: nobody sees the keyboard at {unmarked}")
            browser.press_back_tab()
            need(browser.run(FOCUSED)["order"] == orders[-2], "the way back is another one")


def queries_of_press_desks_are_read_and_tried(browser: Browser) -> None:
    """By choice, where they can't be saved and no saved one is read so; and by a service of that dialect alone, where
    they are saved, and alert."""
    far = "Recall of toys that were made in May. Tesla"
    with Door() as door:
        door.put("tea", "tea coffee")
        browser.open(door.address)
        browser.pick("#dialect", "Press desk")
        browser.until(lambda: "Tesla NEAR/5 recall*" in browser.texts("#examples button"), "other examples are shown")
        browser.fill(TEXT, "A recall by Tesla")
        write(browser, "é OR Tesla NEAR recall")
        browser.has("#sentence", "Of these, those are kept")
        browser.until(lambda: browser.texts(".at-notice") == ["NEAR"], f"marked is {browser.texts('.at-notice')}")
        browser.shows("#verdict", "Holds.")
        browser.shoot("press-by-choice", is_whole=True)
        browser.click("#query-id")
        browser.type("near")
        browser.press("enter")
        browser.has("#said", "Queries are registered in the dialect classic alone here")
        need(door.ask("GET", "/queries").value["count"] == 1, "it is registered")
        write(browser, "é AND")
        browser.shows("#fault", "Something is missing behind AND.")
        need(browser.texts(".at-fault") == ["AND"], f"{browser.texts('.at-fault')}")
        write(browser, "")
        browser.click("[data-id=tea]")
        browser.shows("#sentence", 'The article must have any of ("tea" in text; "coffee" in text).')
        need(browser.run("return document.querySelector('#dialect').value") == "classic", "the dialect stays another")
    with Door("--dialect", "press", engine=command_of([], workers=0)) as door:
        browser.open(door.address)
        browser.until(lambda: "Tesla NEAR/5 recall*" in browser.texts("#examples button"), "other examples are shown")
        need(not browser.find("#dialect-choice").is_displayed(), "there is a choice")
        write(browser, "Tesla NEAR/2 recall")
        browser.has("#sentence", "Of these, those are kept")
        browser.fill(TEXT, far)
        browser.has("#verdict", "Does not hold")
        browser.click("#query-id")
        browser.type("near")
        browser.press("enter")
        browser.has("#said", "Saved.")
        door.match("far", far)
        door.match("near", "A recall by Tesla")
        browser.until(lambda: browser.texts("#alert-list .headline") == ["near"], "another article alerts")
        need(not browser.all("#alert-list mark"), "words are marked")


OWN_ACTS: tuple[OwnAct, ...] = (
    queries_of_press_desks_are_read_and_tried,
    alerts_are_shown_as_they_come, excerpts_end_with_whole_words, many_alerts_are_shown_within_bounds,
    alerts_that_came_before_are_shown, texts_of_others_stay_texts, a_page_that_nobody_sees_keeps_no_connection,
    the_page_goes_on_where_the_door_was_ended, a_link_of_another_site_leads_to_the_page, the_page_asks_for_a_token,
    all_is_done_by_keys, single_keys_can_be_turned_off, everyone_can_read_and_work_the_page,
    the_checks_see_what_is_broken, the_keyboard_goes_through_all)
