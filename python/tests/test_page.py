"""The playground in a browser. With SHOTS, the name of a folder, it leaves pictures there."""
import base64
import http.server
import json
import os
import pathlib
import shutil
import threading

import pytest

for module in ("flask", "waitress", "railroad", "selenium"):
    pytest.importorskip(module, reason=f"needs python3-{module}")
if not shutil.which("chromedriver"):
    pytest.skip("needs chromium-driver", allow_module_level=True)

from selenium import webdriver
from selenium.common.exceptions import TimeoutException
from selenium.webdriver.chrome.options import Options
from selenium.webdriver.chrome.service import Service
from selenium.webdriver.common.by import By
from selenium.webdriver.common.keys import Keys
from selenium.webdriver.support.ui import WebDriverWait

SHOTS = os.environ.get("SHOTS")
QUESTION = {
    "kind": "abnf",
    "grammar": 'a = "x"\n',
    "input": "x\n",
    "rule": "",
    "letters": "bytes",
    "cut": "lines",
    "ends": "lf",
}


@pytest.fixture(scope="session")
def browser():
    options = Options()
    for it in ("--headless=new", "--no-sandbox", "--disable-gpu", "--window-size=1400,900"):
        options.add_argument(it)
    options.set_capability("goog:loggingPrefs", {"browser": "ALL"})
    driver = webdriver.Chrome(service=Service(shutil.which("chromedriver")), options=options)
    driver.set_page_load_timeout(100)
    driver.set_script_timeout(100)
    yield driver
    driver.quit()


@pytest.fixture
def page(server, browser):
    browser.get(server)
    # On a busy machine a run may take longer than it may
    for _ in range(3):
        browser.execute_script("sessionStorage.removeItem('question')")
        browser.get("about:blank")
        browser.get(server)
        try:
            wait(browser, lambda: text(browser, "#derived") != "", 20)
            return browser
        except TimeoutException:
            print(text(browser, "#state"))
    raise TimeoutError("the page has no answer")


def wait(browser, holds, seconds=60):
    WebDriverWait(browser, seconds, poll_frequency=0.05).until(lambda _: holds())


def text(browser, selector):
    return browser.execute_script(f"return document.querySelector({selector!r}).textContent")


def put(browser, editor, value):
    browser.execute_script(f"document.querySelector('#{editor} .CodeMirror').CodeMirror.setValue(arguments[0])", value)


def choose(browser, field, value):
    browser.execute_script(
        "const it = document.getElementById(arguments[0]); it.value = arguments[1];"
        "it.dispatchEvent(new Event('change'))",
        field,
        value,
    )


def shot(browser, name):
    if SHOTS:
        browser.save_screenshot(str(pathlib.Path(SHOTS) / f"{name}.png"))


def test_first_sight(page):
    wait(page, lambda: text(page, "#derived") == "2 of 5 derived")
    assert page.current_url.endswith("/"), "the secret leaves the address bar"
    assert len(page.find_elements(By.CSS_SELECTOR, "#input .line-yes")) == 2
    assert len(page.find_elements(By.CSS_SELECTOR, "#input .line-no")) == 3
    assert len(page.find_elements(By.CSS_SELECTOR, "#diagrams svg")) == 13
    page.execute_script("document.querySelector('#input .CodeMirror').CodeMirror.setCursor(2, 0)")
    wait(page, lambda: "line 3, letter 7" in text(page, "#why"))
    shot(page, "first")
    assert [it for it in page.get_log("browser") if it["level"] == "SEVERE" and "favicon" not in it["message"]] == []


def test_fault_of_a_grammar(page):
    put(page, "grammar", 'time = 2DIGIT ":" ( 2DIGIT\n/ "xx" )\n')
    wait(page, lambda: "syntax error" in text(page, "#notes"))
    assert len(page.find_elements(By.CSS_SELECTOR, "#grammar .CodeMirror-lint-marker-error")) == 1
    shot(page, "fault")


def test_diagrams_of_a_fault_are_those_of_its_language(page):
    faded = "return document.querySelectorAll('#diagrams.stale svg').length"
    put(page, "grammar", "a = (\n")
    wait(page, lambda: page.execute_script(faded) == 13)
    choose(page, "kind", "peg")
    wait(page, lambda: page.execute_script(faded) == 0)
    wait(page, lambda: text(page, "#diagrams") == "")


def test_notes(page):
    put(page, "grammar", 'a = b / <by hand>\nb = "x"\nc = "y"\n')
    reported = "return [...document.querySelectorAll('#notes li')].map((it) => it.className).join(' ')"
    wait(page, lambda: page.execute_script(reported) == "error warning")


def test_texts_are_no_markup(page):
    put(page, "grammar", 'a = <img src=x onerror=window.hacked=1> / "<script>window.hacked=1</script>" / "&lt;"\n')
    wait(page, lambda: "<img" in text(page, "#diagrams"))
    assert page.execute_script("return window.hacked") is None
    assert page.find_elements(By.CSS_SELECTOR, "#diagrams img, #diagrams script, #notes img") == []
    choose(page, "kind", "peg")
    put(page, "grammar", "S <- '</text><script>' / [\"'<>&] { <b onclick=\"x\">\001 }\n")
    wait(page, lambda: "onclick" in text(page, "#diagrams"))
    assert page.find_elements(By.CSS_SELECTOR, "#diagrams b, #diagrams script") == []


def test_slow_grammars_are_ended(page):
    put(page, "grammar", 's = s s / s s s / "a" / "a" s "a"\n')
    put(page, "input", "a" * 4000 + "b")
    wait(page, lambda: "too long" in text(page, "#state") or "memory" in text(page, "#state"), 25)
    put(page, "input", "aaa")
    wait(page, lambda: text(page, "#derived") == "1 of 1 derived", 25)


def test_peg(page):
    choose(page, "example", "PEG: a calculator's steps")
    wait(page, lambda: "no match at byte" in text(page, "#why"))
    assert "push 1" in text(page, "#out")
    assert len(page.find_elements(By.CSS_SELECTOR, "#input .line-yes")) == 2
    shot(page, "peg")


def test_records(page):
    choose(page, "example", "ABNF: heads of HTTP (RFC 9112)")
    wait(page, lambda: text(page, "#derived") == "1 of 1 derived")
    put(page, "input", "GET /index.html HTTP/1.1\nHost: ex\tample\n\n")
    wait(page, lambda: text(page, "#derived") == "0 of 1 derived")
    wait(page, lambda: len(page.find_elements(By.CSS_SELECTOR, "#input .wrong")) == 1)
    shot(page, "record")


def test_names_lead_to_their_rules(page):
    wait(page, lambda: len(page.find_elements(By.CSS_SELECTOR, "#diagrams a")) > 0)
    before = page.execute_script("return document.getElementById('diagrams').scrollTop")
    page.execute_script(
        "const it = [...document.querySelectorAll('#diagrams a')].pop();"
        "it.dispatchEvent(new MouseEvent('click', {bubbles: true, cancelable: true}))"
    )
    wait(page, lambda: page.execute_script("return document.getElementById('diagrams').scrollTop") != before)


def test_a_link_has_all_of_it(page, server):
    choose(page, "cut", "whole")
    put(page, "grammar", 'a = "x"\nb = "+/~" ; \u00e9\n')
    put(page, "input", "x\n\u20ac")
    rules = "return [...document.querySelectorAll('#rule option')].slice(1).map((it) => it.text)"
    wait(page, lambda: page.execute_script(rules) == ["a", "b"])
    choose(page, "rule", "b")
    page.find_element(By.ID, "link").click()
    made = page.current_url
    assert "/#=" in made and server.split("#")[1] not in made
    page.execute_script("sessionStorage.removeItem('question')")
    page.get("about:blank")
    page.get(made)
    shown = "return [...arguments].map((id) => document.querySelector(`#${id} .CodeMirror`).CodeMirror.getValue())"
    assert page.execute_script(shown, "grammar", "input") == ['a = "x"\nb = "+/~" ; \u00e9\n', "x\n\u20ac"]
    chosen = "return [...arguments].map((id) => document.getElementById(id).value)"
    fields = ["kind", "rule", "cut", "letters", "ends"]
    assert page.execute_script(chosen, *fields) == ["abnf", "b", "whole", "bytes", "lf"]
    # What is no link changes nothing, and an edit takes the link off the address
    for wrong in ("#=AAAA", "#=!", "#=bnVsbA", "#=e30"):
        page.execute_script("location.hash = arguments[0]", wrong)
    assert page.execute_script(shown, "input") == ["x\n\u20ac"]
    put(page, "input", "y")
    wait(page, lambda: "#" not in page.current_url)


VALUE = "return document.querySelector(`#${arguments[0]} .CodeMirror`).CodeMirror.getValue()"
LINES = "return [...document.getElementById('lines').options].map((it) => it.label)"
BITS = 'bits = 1*2("0" / "1")\n'


def write(browser, grammar):
    """Puts a grammar there, whose first rule is judged."""
    choose(browser, "rule", "")
    put(browser, "grammar", grammar)


def open_pane(browser, name):
    browser.find_element(By.ID, f"tab-{name}").click()
    assert browser.find_element(By.ID, name).is_displayed()


@pytest.mark.usefixtures("programs")
def test_samples(page):
    write(page, BITS)
    open_pane(page, "samples")
    wait(page, lambda: text(page, "#samples-state") == "6 lines: all of at most 64 letters")
    assert page.execute_script(LINES) == ['"0"', '"1"', '"00"', '"01"', '"10"', '"11"']
    assert text(page, "#samples-command") == "abnfg -c 20 -l 64 grammar.abnf"
    put(page, "input", "2")
    page.execute_script("document.getElementById('lines').selectedIndex = 2")
    page.find_element(By.ID, "add").click()
    wait(page, lambda: text(page, "#derived") == "1 of 2 derived")
    assert page.execute_script(VALUE, "input") == "2\n00"
    write(page, 'b = *"x"\n')
    wait(page, lambda: text(page, "#samples-state") == "20 lines")
    choose(page, "count", "100")
    wait(page, lambda: text(page, "#samples-state") == "100 lines")
    assert page.execute_script(LINES)[:3] == ['""', '"X"', '"x"']
    shot(page, "samples")
    write(page, 'a = a "b" / "c"\n')
    wait(page, lambda: text(page, "#samples-state") == "too many stacks: more lines may follow")
    write(page, "a = b\n")
    wait(page, lambda: text(page, "#samples-state") == "rule 'b' used but not defined")
    assert page.execute_script(LINES) == []


@pytest.mark.usefixtures("programs")
def test_samples_with_line_ends(page):
    write(page, 'a = "x" CRLF "y" / LF / %xFF / %x00 / SP SP\n')
    open_pane(page, "samples")
    wait(page, lambda: page.execute_script(LINES) == ['"\\x00"', '"\\xFF"', '"  "'])
    choose(page, "cut", "whole")
    lines = ['"\\x0A"', '"\\xFF"', '"  "', *(f'"{x}\\x0D\\x0A{y}"' for x in "Xx" for y in "Yy")]
    wait(page, lambda: page.execute_script(LINES) == lines)
    taken = {}
    for ends in ("lf", "crlf"):
        choose(page, "ends", ends)
        for at in range(4):
            put(page, "input", "?")
            page.execute_script("document.getElementById('lines').selectedIndex = arguments[0]", at)
            page.find_element(By.ID, "add").click()
            taken[ends, at] = page.execute_script(VALUE, "input")
    # Only with its line ends can the input hold a record: one that it cannot hold leaves it as it is
    assert [taken["lf", at] for at in range(4)] == ["\n", "?", "  ", "?"]
    assert [taken["crlf", at] for at in range(4)] == ["?", "?", "  ", "X\nY"]
    assert text(page, "#samples-state") == "7 lines: all of at most 64 letters"
    assert page.execute_script("return document.getElementById('lines').selectedIndex") == 3
    wait(page, lambda: text(page, "#derived") == "1 of 1 derived")


@pytest.mark.usefixtures("programs")
def test_comparison(page):
    write(page, 'date = 4DIGIT "-" 2DIGIT\n')
    put(page, "input", "")
    open_pane(page, "compare")
    wait(page, lambda: text(page, "#compare-state") == "keep this grammar, then change it above")
    page.find_element(By.ID, "keep").click()
    wait(page, lambda: text(page, "#compare-state") == "same")
    write(page, 'date = year "-" 1*2DIGIT\nyear = 4DIGIT\n')
    wait(page, lambda: text(page, "#compare-state") == "differ")
    rows = "return [...document.querySelectorAll('#alone p')].map((it) => it.textContent)"
    wanted = ["Only the earlier grammar derives: none", 'Only this grammar derives: "0000-0"']
    assert page.execute_script(rows) == wanted
    assert text(page, "#compare-command") == "abnfd old.abnf new.abnf"
    page.find_element(By.CSS_SELECTOR, "#alone button").click()
    wait(page, lambda: text(page, "#derived") == "1 of 1 derived")
    assert page.execute_script(VALUE, "input") == "0000-0"
    shot(page, "compare")
    # A rule of another name, and one that is missing
    put(page, "old", 'month = DIGIT\nyear = "9"\n')
    wait(page, lambda: text(page, "#compare-state") == "differ")
    page.find_element(By.ID, "old-rule").send_keys("none")
    wait(page, lambda: text(page, "#compare-state").startswith("old: rule 'none' used but not defined"))
    assert page.execute_script(rows) == []
    write(page, 'date = *2[DIGIT]\n')
    page.find_element(By.ID, "old-rule").clear()
    wait(page, lambda: text(page, "#compare-state") == "not known")


@pytest.mark.usefixtures("programs")
def test_comparison_of_an_example(page):
    choose(page, "example", "ABNF: a field's value, RFC 7230 and 9110")
    wait(page, lambda: text(page, "#compare-state") == "differ" and text(page, "#derived") == "1 of 2 derived")
    buttons = page.find_elements(By.CSS_SELECTOR, "#alone button")
    assert [it.text for it in buttons] == ['"\\x0D\\x0A "', '"! ! !"']
    before = page.execute_script(VALUE, "input")
    buttons[0].click()
    wait(page, lambda: text(page, "#state") == "the input cannot hold this line")
    assert page.execute_script(VALUE, "input") == before
    buttons[1].click()
    wait(page, lambda: text(page, "#derived") == "2 of 3 derived")
    shot(page, "example")


@pytest.mark.usefixtures("programs")
def test_lines_are_no_markup(page):
    write(page, 'a = %s"<img src=x onerror=window.hacked=1>"\n')
    open_pane(page, "samples")
    wait(page, lambda: page.execute_script(LINES) == ['"<img src=x onerror=window.hacked=1>"'])
    open_pane(page, "compare")
    put(page, "old", 'a = %s"</p><script>window.hacked=1</script>"\n')
    wait(page, lambda: "<script>" in text(page, "#alone"))
    assert page.execute_script("return window.hacked") is None
    assert page.find_elements(By.CSS_SELECTOR, "#samples img, #alone script, #alone img") == []


def test_panes_of_abnf_go_with_its_language(page):
    open_pane(page, "compare")
    choose(page, "kind", "peg")
    assert not page.find_element(By.ID, "tab-samples").is_displayed()
    assert not page.find_element(By.ID, "tab-compare").is_displayed()
    assert page.find_element(By.ID, "diagrams").is_displayed()


@pytest.mark.usefixtures("programs")
def test_a_link_has_the_panes(page, server):
    write(page, BITS)
    open_pane(page, "compare")
    put(page, "old", "bit = BIT\nbits = 1*BIT ; \u00e9\n")
    page.find_element(By.ID, "old-rule").send_keys("bits")
    choose(page, "count", "1000")
    choose(page, "length", "16")
    wait(page, lambda: text(page, "#compare-state") == "differ")
    page.find_element(By.ID, "link").click()
    made = page.current_url
    page.execute_script("sessionStorage.removeItem('question')")
    page.get("about:blank")
    page.get(made)
    wait(page, lambda: text(page, "#compare-state") == "differ")
    assert page.find_element(By.ID, "compare").is_displayed()
    assert page.execute_script(VALUE, "old") == "bit = BIT\nbits = 1*BIT ; \u00e9\n"
    chosen = "return [...arguments].map((id) => document.getElementById(id).value)"
    assert page.execute_script(chosen, "old-rule", "count", "length") == ["bits", "1000", "16"]
    assert page.current_url == made
    # A link of the question alone is one too; a wrong choice is none
    it = {**QUESTION, "grammar": 'b = "y"\n'}
    link = lambda it: "#=" + base64.urlsafe_b64encode(json.dumps(it).encode()).decode().rstrip("=")
    page.execute_script("location.hash = arguments[0]", link(it))
    wait(page, lambda: page.execute_script(VALUE, "grammar") == it["grammar"])
    assert page.execute_script(VALUE, "old") == ""
    for wrong in ({"pane": "x"}, {"count": "7"}, {"old": 1}):
        page.execute_script("location.hash = arguments[0]", link({**it, "grammar": "", **wrong}))
    assert page.execute_script(VALUE, "grammar") == it["grammar"]
    open_pane(page, "samples")
    wait(page, lambda: "#" not in page.current_url)


def test_without_the_secret(server, browser):
    browser.get("about:blank")
    browser.execute_script("window.x = 1")
    browser.get(server.split("#")[0])
    browser.execute_script("sessionStorage.clear()")
    browser.refresh()
    wait(browser, lambda: "open the address" in text(browser, "#state"))


def test_another_origin_gets_nothing(server, browser, tmp_path):
    """A page of another origin, which even knows the secret, cannot ask."""
    own, secret = server.split("/#")
    (tmp_path / "evil.html").write_text("<title>evil</title>")

    class Quiet(http.server.SimpleHTTPRequestHandler):
        def __init__(self, *words):
            super().__init__(*words, directory=str(tmp_path))

        def log_message(self, *_):
            pass

    with http.server.ThreadingHTTPServer(("127.0.0.1", 0), Quiet) as other:
        threading.Thread(target=other.serve_forever, daemon=True).start()
        browser.get(f"http://127.0.0.1:{other.server_port}/evil.html")
        reported = browser.execute_async_script(
            """
            const [own, secret, body, done] = arguments, tries = {};
            const attempt = async (name, init) => {
                try { const it = await fetch(own + "/answer", init); tries[name] = it.type + " " + it.status; }
                catch (fault) { tries[name] = "refused"; }
            };
            (async () => {
                const json = { "Content-Type": "application/json", "X-Fanquber-Secret": secret };
                await attempt("cors", { method: "POST", body, headers: json });
                await attempt("plain", { method: "POST", body, headers: { "Content-Type": "text/plain" } });
                await attempt("opaque", { method: "POST", body, mode: "no-cors" });
                await new Promise((next) => {
                    const it = document.createElement("script");
                    it.src = own + "/files/page.js";
                    it.onload = () => { tries.script = "loaded"; next(); };
                    it.onerror = () => { tries.script = "refused"; next(); };
                    document.head.append(it);
                });
                const frame = document.createElement("iframe"); frame.src = own + "/"; document.body.append(frame);
                await new Promise((next) => { frame.onload = next; setTimeout(next, 2000); });
                try { tries.frame = frame.contentDocument ? "readable" : "closed"; } catch { tries.frame = "closed"; }
                done(tries);
            })();
        """,
            own,
            secret,
            json.dumps(QUESTION),
        )
        other.shutdown()
    ways = ("cors", "plain", "opaque", "script")
    assert reported == {**dict.fromkeys(ways, "refused"), "frame": "closed"}


def focused(browser):
    """Returns what has the focus: its id, or that of the editor or the pane that holds it."""
    holds = "it.closest('#grammar, #input, #notes, #diagrams, #old, #alone') || {}"
    return browser.execute_script(f"const it = document.activeElement; return it.id || ({holds}).id || ''")


def test_the_keyboard_alone_is_enough(page):
    seen = []
    for _ in range(14):
        page.switch_to.active_element.send_keys(Keys.TAB)
        seen.append(focused(page))
    wanted = ["kind", "rule", "letters", "cut", "ends", "example", "grammar", "input", "tab-diagrams", "diagrams"]
    assert [it for it in seen if it in wanted][:10] == wanted
    # Into the grammar again, and a rule more
    page.execute_script("document.querySelector('#grammar .CodeMirror').CodeMirror.focus()")
    page.switch_to.active_element.send_keys(Keys.CONTROL, Keys.END)
    page.switch_to.active_element.send_keys("more = none" + Keys.ENTER)
    wait(page, lambda: "rule 'none' used but not defined" in text(page, "#notes"))
    page.switch_to.active_element.send_keys(Keys.TAB)
    assert focused(page) == "notes"
    page.switch_to.active_element.send_keys(Keys.ENTER)
    assert focused(page) == "grammar"
    # Tabs by the arrow keys
    page.execute_script("document.getElementById('tab-diagrams').focus()")
    for pane in ("out", "canonical", "samples", "compare", "command"):
        page.switch_to.active_element.send_keys(Keys.ARROW_RIGHT)
        assert focused(page) == f"tab-{pane}"
        assert page.find_element(By.ID, pane).is_displayed()
    assert not page.find_element(By.ID, "diagrams").is_displayed()
    # Tabs that are not there are passed over
    choose(page, "kind", "peg")
    page.switch_to.active_element.send_keys(Keys.ARROW_LEFT)
    assert focused(page) == "tab-canonical"


@pytest.mark.usefixtures("programs")
def test_the_keyboard_alone_is_enough_for_the_panes(page):
    press = lambda *keys: page.switch_to.active_element.send_keys(*keys)
    write(page, BITS)
    put(page, "input", "")
    page.execute_script("document.getElementById('tab-canonical').click()")
    page.execute_script("document.getElementById('tab-canonical').focus()")
    press(Keys.ARROW_RIGHT)
    wait(page, lambda: text(page, "#samples-state").startswith("6 lines"))
    for name in ("count", "length", "add", "lines"):
        press(Keys.TAB)
        assert focused(page) == name
    press(Keys.ARROW_DOWN)
    press(Keys.ENTER)
    wait(page, lambda: text(page, "#derived") == "1 of 1 derived")
    press(Keys.ARROW_DOWN)
    press(Keys.ENTER)
    wait(page, lambda: page.execute_script(VALUE, "input") == "1\n00")
    assert focused(page) == "lines"
    page.execute_script("document.getElementById('tab-samples').focus()")
    press(Keys.ARROW_RIGHT)
    press(Keys.TAB)
    assert focused(page) == "keep"
    press(Keys.ENTER)
    wait(page, lambda: text(page, "#compare-state") == "same")
    write(page, 'bits = 1*3("0" / "1")\n')
    wait(page, lambda: text(page, "#compare-state") == "differ")
    press(Keys.TAB)
    assert focused(page) == "old-rule"
    press(Keys.TAB)
    assert focused(page) == "alone"
    press(Keys.ENTER)
    wait(page, lambda: page.execute_script(VALUE, "input") == "1\n00\n000")
    press(Keys.TAB)
    assert focused(page) == "old"
    press("=")
    wait(page, lambda: text(page, "#compare-state").startswith("old: line 1: syntax error"))
    press(Keys.TAB)
    assert focused(page) != "old"  # it is the last of the page


def colour(browser, selector, name):
    """Returns the brightness of a colour, from 0 to 255."""
    reported = browser.execute_script(f"return getComputedStyle(document.querySelector({selector!r})).{name}")
    numbers = [int(it) for it in reported.partition("(")[2].rstrip(")").split(",")[:3]]
    return sum(numbers) / 3


@pytest.mark.parametrize("scheme", ["light", "dark"])
def test_light_and_dark(page, scheme):
    media = {"features": [{"name": "prefers-color-scheme", "value": scheme}]}
    page.execute_cdp_cmd("Emulation.setEmulatedMedia", media)
    editor = (".CodeMirror", ".CodeMirror-gutters", ".CodeMirror-scrollbar-filler", ".CodeMirror-gutter-filler")
    page.execute_script("document.getElementById('keep').click()")
    open_pane(page, "samples")
    open_pane(page, "compare")
    panes = ("#lines", "#old-rule", "#old .CodeMirror", "#keep")
    for selector in ("body", "header", *editor, ".line-yes", ".line-no", "select", *panes):
        shown = colour(page, selector, "backgroundColor")
        assert shown > 200 if scheme == "light" else shown < 90, selector
        ink = colour(page, selector, "color")
        assert abs(ink - shown) > 100, selector
    shot(page, scheme)
    page.execute_cdp_cmd("Emulation.setEmulatedMedia", {"features": []})


def test_at_400_pixels(page):
    size = {"width": 400, "height": 900, "deviceScaleFactor": 1, "mobile": False}
    page.execute_cdp_cmd("Emulation.setDeviceMetricsOverride", size)
    wide = "return Math.max(document.documentElement.scrollWidth, document.body.scrollWidth)"
    assert page.execute_script(wide) <= 400
    seen = ("#kind", "#example", "#grammar", "#input", "#tab-reference")
    panes = {
        "samples": ("#count", "#length", "#add", "#lines"),
        "compare": ("#keep", "#old-rule", "#compare-state", "#old"),
        "diagrams": ("#diagrams",),
    }
    for name, parts in panes.items():
        open_pane(page, name)
        for selector in (*seen, *parts):
            box = page.find_element(By.CSS_SELECTOR, selector).rect
            assert box["x"] >= 0 and box["x"] + box["width"] <= 400 and box["height"] > 15, selector
        assert page.execute_script(wide) <= 400
        shot(page, f"small-{name}")
    page.execute_cdp_cmd("Emulation.clearDeviceMetricsOverride", {})
