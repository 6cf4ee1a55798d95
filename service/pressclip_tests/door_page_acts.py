"""Acts on the door's page in a real browser, over a door that they share: what is done, and what is to be seen."""

from __future__ import annotations

from typing import TYPE_CHECKING, Callable

from .door_runs import Door
from .judge import need

if TYPE_CHECKING:
    from .door_page_browser import Browser

Act = Callable[["Browser", Door], None]
QUERY, TITLE, TEXT = "#query-box .CodeMirror", "[data-field=title] .CodeMirror", "[data-field=text] .CodeMirror"
MARKED = "[data-field={}] .hit"
# Queries, how each is read by the page on explaining and the crates' sentences, and the parts of the tree by hand.
READ = (
    ("+tea -(coffee milk*)",
     'The article must have "tea" in text, but not any of ("coffee" in text; a word that begins with "milk" in text).',
     ["must have: tea", "but not any of: coffee|milk…"]),
    ('title:merger "green tea"',
     'The article must have any of ("merger" in title; the phrase "green tea" in text).',
     ["any of: merger in title|“green tea”"]),
    ("tea [b TO *] +x",
     'The article must have "x" in text.', ["must have: x", "without effect: tea|a word from b"]),
)
BLANK = "A blank is read as OR: write AND between the two, or quotes around them."
MISSING = "Something is missing at the end: a word, a phrase, or a closing parenthesis."
ARTICLES = (
    {"id": "a1", "fields": {"title": "Tea prices rise", "text": "Tea prices rose in March. Growers of green tea ask for"
                                                               " more."}},
    {"id": "a2", "fields": {"title": "Harbour strike", "lead": "Ships wait", "text": "The strike goes on."}},
)


def write(browser: Browser, text: str) -> None:
    """Writes a query in place of the one that is there. What is said of it then moves all that stands below."""
    browser.click(QUERY)
    browser.press_control("a")
    if text:
        browser.type(text)
    else:
        browser.press("backspace")


def branches(browser: Browser) -> list[str]:
    """The parts of the tree, each with what is said before it and its leaves."""
    found: list[str] = browser.run("""return [...document.querySelectorAll("#tree > .branch")].map((branch) =>
        branch.querySelector(".how").textContent + ": " + [...branch.querySelectorAll(".leaf")].map((leaf) =>
          [...leaf.childNodes].filter((one) => one.className !== "unseen").map((one) => one.textContent).join(""))
          .join("|"))""")
    return found


def a_query_is_read_as_it_is_written(browser: Browser, door: Door) -> None:
    """The sentence and the tree of each query, and examples while there is none."""
    browser.open(door.address)
    need(len(browser.all("#examples button")) == 5, "there are no examples")
    browser.shoot("empty")
    for text, sentence, tree in READ:
        write(browser, text)
        browser.shows("#sentence", sentence)
        need(branches(browser) == tree, f"{text}: {branches(browser)}")
        need(not browser.find("#examples").is_displayed(), "examples are still shown")
    write(browser, "")
    browser.until(lambda: browser.find("#examples").is_displayed(), "no examples beside an empty box")
    browser.click("#examples button")
    browser.shows("#sentence", 'The article must have any of ("tea" in text; "coffee" in text).')


def remarks_and_faults_are_marked_at_their_places(browser: Browser, door: Door) -> None:
    """Also behind characters of several bytes; F8 and a click lead there."""
    browser.open(door.address)
    write(browser, "Müller Energy")
    browser.has("#remarks .warning", BLANK)
    need(browser.texts(".at-warning") == ["Energy"], f"{browser.texts('.at-warning')}")
    browser.press("f8")
    need(browser.run("return getSelection().toString()") == "Energy", "F8 does not lead to the place")
    browser.press("end")
    browser.click("#remarks .warning .part")
    need(browser.run("return getSelection().toString()") == "Energy", "a click does not lead to the place")
    browser.shoot("remarks")
    write(browser, "tea AND")
    browser.shows("#fault", MISSING)
    need(browser.find("#query-box .caret.at-fault").get_attribute("title") == MISSING, "no caret at the end")
    need(browser.find("#query-box [role=textbox]").get_attribute("aria-invalid") == "true", "the box is not invalid")
    need(not browser.find("#sentence").is_displayed(), "a text that is no query has a meaning")
    browser.fill(QUERY, '"🍵 tea" AND OR tea')
    browser.until(lambda: browser.texts(".at-fault") == ["OR"], "the fault is not at OR")


def what_costs_or_never_holds_is_told(browser: Browser, door: Door) -> None:
    """Before a query is saved."""
    browser.open(door.address)
    write(browser, "*:* -spam")
    browser.has("#flags", "Tried on every article")
    write(browser, "*:*")
    browser.has("#flags", "Every article holds it.")
    browser.shows("#sentence", "Every article holds this query.")
    write(browser, "-spam")
    browser.shows("#flags", "No article can hold it.")
    browser.shoot("never")
    write(browser, "tea")
    browser.until(lambda: not browser.find("#flags").is_displayed(), "a good query has flags")


def a_query_is_tried_on_an_article(browser: Browser, door: Door) -> None:
    """On a text that is pasted and on one of the last articles, and nothing of that is registered."""
    for article in ARTICLES:
        need(door.ask("POST", "/articles", article).status == 200, "an article is refused")
    browser.open(door.address)
    write(browser, "+tea pric* title:prices")
    browser.paste(TEXT, "Price of TEA: tea is dear")
    browser.shows("#verdict", "Holds: 3 words marked (Price, TEA, tea).")
    need(browser.texts(MARKED.format("text")) == ["Price", "TEA", "tea"], "the words are not marked")
    browser.pick("#pick", "Tea prices rise")
    browser.shows("#verdict", "Holds: 4 words marked (Tea, prices, tea).")
    need(browser.texts(MARKED.format("title")) == ["prices"], "the title is not marked")
    browser.shoot("tried", is_whole=True)
    browser.pick("#pick", "Harbour strike")
    browser.shows("#verdict", "Does not hold: this article would not alert.")
    need(browser.text("[data-field=lead] .CodeMirror-code") == "Ships wait", "the field lead is not shown")
    write(browser, "lead:ships")
    browser.shows("#verdict", "Holds: 1 word marked (Ships).")
    write(browser, "lead:(ships")
    browser.shows("#verdict", "It is tried once the query can be read.")
    need(not browser.all(".hit"), "a text that is no query marks words")
    need(door.ask("GET", "/queries").value["count"] == 0, "a trial is registered")
    last = door.ask("GET", "/articles").value["articles"]
    need([one["id"] for one in last[:2]] == ["a2", "a1"], f"a trial is among the last articles: {last}")


def queries_are_saved_found_changed_and_deleted(browser: Browser, door: Door) -> None:
    """Each as the door has it then; nothing of others is replaced or lost without a question."""
    for number in range(120):
        door.put(f"other-{number:03}", "coffee")
    browser.open(door.address)
    write(browser, "+tea pric*")
    browser.has("#remarks", "pric*")
    browser.click("#save-query")
    browser.shows("#said", "Give it a name first.")
    browser.type("tea/prices")
    browser.press("enter")
    browser.shows("#said", "Saved. Alerts begin with the next article.")
    need(door.ask("GET", "/queries/tea%2Fprices").value["query"] == "+tea pric*", "it is not registered")
    browser.shows("#query-count", "121")
    need(len(browser.all("#query-list li")) == 50, "the list is not in pages")
    browser.click("#more-queries")
    browser.until(lambda: len(browser.all("#query-list li")) == 100, "no second page")
    browser.click("#search")
    browser.type("PRIC")
    browser.until(lambda: browser.texts("#query-list .name") == ["tea/prices"], "it is not found by its text")
    need(browser.texts("#query-list [aria-current] .name") == ["tea/prices"], "the open one is not shown as such")
    browser.shoot("saved")
    browser.run("document.querySelector('#search').value = ''")
    browser.click("#search")
    browser.type("other-07")
    browser.press("enter")
    browser.shows("#write-heading", "other-070")
    need(len(browser.all("#query-list li")) == 10, "not ten are found by their ids")
    browser.click("#search")
    browser.press("down", "down", "enter")
    browser.shows("#write-heading", "other-071")
    leaves = """const event = new Event("beforeunload", {cancelable: true});
        dispatchEvent(event); return !event.defaultPrevented"""
    need(browser.run(leaves) is True, "a page without changes can't be left")
    write(browser, "milk")
    browser.shows("#write-note", "Changed, and not saved yet")
    need(browser.run(leaves) is False, "a page with changes is left without a question")
    browser.click("#query-id")
    browser.press_control("a")
    browser.type("other-072")
    browser.press_control("s")
    browser.shows("#question-heading", "There is a query other-072 already")
    browser.press("escape")
    need(door.ask("GET", "/queries/other-072").value["query"] == "coffee", "another query was replaced")
    browser.click("#query-list [data-id=other-075]")
    browser.shows("#question-heading", "Leave without saving?")
    browser.click("#question-yes")
    browser.shows("#write-heading", "other-075")
    browser.click("#delete-query")
    browser.shows("#question-heading", "Delete other-075?")
    browser.click("#question-yes")
    browser.shows("#said", "Deleted other-075.")
    door.ask("GET", "/queries/other-075").refused(404, "missing")


def what_others_change_meanwhile_is_not_lost(browser: Browser, door: Door) -> None:
    """A query that another one changed since it was opened is replaced only where that is wished."""
    door.put("q1", "tea")
    browser.open(door.address)
    browser.until(lambda: browser.all("[data-id=q1]"), "it is not listed")
    browser.click("[data-id=q1]")
    browser.shows("#write-heading", "q1")
    door.put("q1", "coffee")
    browser.type(" milk")
    browser.press_control("s")
    browser.shows("#question-heading", "Someone changed q1 meanwhile")
    browser.shows("#question-text", "It is: coffee")
    browser.click("#question-no")
    need(door.ask("GET", "/queries/q1").value["query"] == "coffee", "it was replaced")
    browser.press_control("s")
    browser.shows("#question-heading", "Someone changed q1 meanwhile")
    browser.click("#question-yes")
    browser.has("#said", "Saved.")


def refusals_are_shown(browser: Browser, door: Door) -> None:
    """Of a text that is no query, and of a name that is too long or has no address."""
    browser.open(door.address)
    write(browser, "tea AND")
    browser.shows("#fault", MISSING)
    browser.click("#query-id")
    browser.type("q1")
    browser.press("enter")
    browser.until(lambda: "bad" in (browser.find("#said").get_attribute("class") or "").split(), "no refusal")
    browser.has("#said", "Something is missing at the end")
    write(browser, "tea")
    browser.has("#sentence", '"tea"')
    browser.click("#query-id")
    browser.press_control("a")
    browser.type("..")
    browser.press("enter")
    browser.has("#said", "A name that is only dots has no address")
    browser.press_control("a")
    browser.type("é" * 200)
    browser.press("enter")
    browser.has("#said", "256 bytes")


def large_texts_are_read_and_marked_within_bounds(browser: Browser, door: Door) -> None:
    """A query of 4,000 words, and an article in which a word stands 50,000 times."""
    browser.open(door.address)
    words = [f"word{number}" for number in range(4_000)]
    browser.fill(QUERY, " ".join(words))
    browser.has("#sentence", '"word1" in text; "word2" in text')
    browser.has("#tree", "and 3,880 more parts")
    need(len(browser.texts("#sentence")[0]) < 2_000, "the sentence is not cut")
    need(len(browser.all(".at-hint")) <= 200, "all remarks are marked")
    browser.fill(QUERY, "tea")
    browser.fill(TEXT, "tea " * 50_000)
    browser.shows("#verdict", "Holds at 50,000 words (tea); the first 1,000 are marked.")


def the_page_asks_no_other_host(browser: Browser, door: Door) -> None:
    """All that it loads comes from the door, and it keeps nothing but what it says."""
    browser.open(door.address)
    write(browser, "tea")
    browser.has("#sentence", "tea")
    need(browser.hosts() == {door.address}, f"{browser.hosts()}")
    need(browser.run("return document.cookie + Object.keys(localStorage).length") == "0", "it keeps something")


SHARED_ACTS: tuple[Act, ...] = (
    a_query_is_read_as_it_is_written, remarks_and_faults_are_marked_at_their_places, what_costs_or_never_holds_is_told,
    a_query_is_tried_on_an_article, queries_are_saved_found_changed_and_deleted,
    what_others_change_meanwhile_is_not_lost, refusals_are_shown, large_texts_are_read_and_marked_within_bounds,
    the_page_asks_no_other_host)
