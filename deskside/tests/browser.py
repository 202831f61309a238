"""Checks of the pages in a real browser (Debian's chromium, driven by python3-selenium): what it shows is the desk's answer, by keyboard and in print too, and no
request leaves the machine. With a folder named, pictures of the pages are put there."""
import base64
import json
import os
import re
import shutil
import subprocess
import sys
import tempfile
import time
import urllib.error
import urllib.request

sys.dont_write_bytecode = True
HERE = os.path.dirname(os.path.abspath(__file__))
sys.path[:0] = [os.path.dirname(HERE), HERE]
import desk  # noqa: E402
import pages  # noqa: E402
import register  # noqa: E402

PORT = 8792
WORK = "/akn/gb/act/2001-03-14/11"
SHOWN = {"works": "/", "timeline": WORK, "text": f"{WORK}/eng@2006-01-01", "comparison": f"{WORK}/eng@2006-01-01?against=2005-12-31",
         "draft": f"/drafts/ada?work={WORK}&day=2012-03-01", "unapplied": "/unapplied?day=2006-01-01"}


def browser():
    """A browser without a window, or None where there is none."""
    try:
        from selenium import webdriver
        from selenium.webdriver.chrome.service import Service
    except ImportError:
        return None
    if not shutil.which("chromedriver") or not shutil.which("chromium"):
        return None
    options = webdriver.ChromeOptions()
    options.binary_location = shutil.which("chromium")
    for it in ("--headless=new", "--no-sandbox", "--disable-gpu", "--disable-dev-shm-usage", "--window-size=1100,900", "--disable-background-networking", "--no-first-run"):
        options.add_argument(it)
    options.set_capability("goog:loggingPrefs", {"performance": "ALL"})
    return webdriver.Chrome(service=Service(shutil.which("chromedriver")), options=options)


def checked(check, pictures=None):
    window = browser()
    if window is None:
        print("deskside: chromium or python3-selenium is not there, so no browser looks at the pages")
        return
    with tempfile.TemporaryDirectory(prefix="deskside-") as path:
        dossier = pages.folder_of(path)
        ran = subprocess.Popen([os.path.join(os.path.dirname(HERE), "deskside"), "web", path, str(PORT)], stdout=subprocess.PIPE, stderr=subprocess.DEVNULL)
        try:
            ran.stdout.readline()
            load(dossier)
            for name, address in SHOWN.items():
                looked_at(check, window, name, f"http://localhost:{PORT}{address}", pictures)
            looked_at(check, window, "a page of its own", alone(path), None)
            shown = window.execute_script(WORDS)
            check("a page of its own says what the desk says", not missing(shown, desk.text(dossier, "2006-01-01")[0]), shown[:80])
            by_keyboard(check, window)
            said(check, window)
            printed(check, window)
        finally:
            window.quit()
            ran.terminate()
            ran.wait()


def alone(path):
    """The address of a page that the command writes."""
    program, name = os.path.join(os.path.dirname(HERE), "deskside"), os.path.join(path, "harbours")
    with open(f"{name}.html", "wb") as it:
        subprocess.run([program, "html", name, "2006-01-01"], stdout=it, check=True)
    return f"file://{name}.html"


def load(dossier):
    item = {"drafter": "ada", "request": 1, "command": "draftAdd", "work": WORK,
            "modification": {"textualMod": {"type": "repeal", "source": {"href": "/akn/gb/act/2012-01-01/1", "place": 1}, "force": {"from": "2012-02-01"}, "destination": {"wId": "sec_1"}}}}
    for it in [*register.commands(dossier), item]:
        for _ in range(50):
            try:
                urllib.request.urlopen(urllib.request.Request(f"http://localhost:{PORT}/commands", json.dumps(it).encode(), {"Content-Type": "application/json"}), timeout=10)
                break
            except urllib.error.HTTPError:
                raise
            except OSError:
                time.sleep(0.2)


def looked_at(check, window, name, address, pictures):
    """One page: its headings stand in order, all of it is reached by keyboard, its colours are told apart, it goes to paper, and nothing is fetched from elsewhere."""
    window.get(address)
    if pictures and name in ("timeline", "text", "comparison", "draft"):
        window.save_screenshot(os.path.join(pictures, f"deskside-{name}.png"))
    levels = window.execute_script("return [...document.querySelectorAll('h1,h2,h3,h4,h5,h6')].map(it => +it.tagName[1])")
    check(f"{name}: one h1 first, and no level left out", levels and levels[0] == 1 and levels.count(1) == 1 and all(b <= a + 1 for a, b in zip(levels, levels[1:])), str(levels))
    labelled = window.execute_script("return [...document.querySelectorAll('input,select')].every(it => it.labels.length)")
    check(f"{name}: each field has a label", labelled)
    ids = window.execute_script("return [...document.querySelectorAll('[id]')].map(it => it.id)")
    check(f"{name}: each anchor once", len(ids) == len({*ids}), str([it for it in ids if ids.count(it) > 1]))
    broken = window.execute_script("return [...document.querySelectorAll('a[href^=\"#\"]')].map(it => it.getAttribute('href').slice(1)).filter(it => !document.getElementById(it))")
    check(f"{name}: each link within it has its anchor", not broken, str(broken))
    told_apart(check, window, name)
    tabbed(check, window, name)
    on_paper(check, window, name)
    asked = [json.loads(it["message"])["message"] for it in window.get_log("performance")]
    addresses = [it["params"]["request"]["url"] for it in asked if it["method"] == "Network.requestWillBeSent"]
    check(f"{name}: no request leaves the page", addresses and all(it.startswith((f"http://localhost:{PORT}/", "file://")) for it in addresses), str(addresses))


COLOURS = """
const ground = it => { for (; it; it = it.parentElement) { const g = getComputedStyle(it).backgroundColor; if (!/, 0\\)$|transparent/.test(g)) return g; } return 'rgb(255, 255, 255)'; };
const worded = it => [...it.childNodes].some(n => n.nodeType === 3 && n.data.trim()) || ['INPUT', 'SELECT', 'BUTTON'].includes(it.tagName);
return [...new Set([...document.querySelectorAll('body *')].filter(worded).map(it => getComputedStyle(it).color + '|' + ground(it)))];"""


def told_apart(check, window, name):
    """Each word has a contrast of 4.5 at least with what lies behind it."""
    pairs = [it.split("|") for it in window.execute_script(COLOURS)]
    poor = [it for it in pairs if contrast(*it) < 4.5]
    check(f"{name}: contrast of 4.5 at least", pairs and not poor, str(poor))


def contrast(colour, ground):
    """The contrast of a colour with a ground, as the Web Content Accessibility Guidelines reckon it."""
    def light(colour):
        parts = [it / 12.92 if it <= 0.03928 else ((it + 0.055) / 1.055) ** 2.4 for it in (float(it) / 255 for it in re.findall(r"[0-9.]+", colour)[:3])]
        return 0.2126 * parts[0] + 0.7152 * parts[1] + 0.0722 * parts[2]

    one, other = sorted((light(colour), light(ground)))
    return (other + 0.05) / (one + 0.05)


# What the keyboard should reach, in the order of the document, each with its number.
STOPS = """
const seen = [...document.querySelectorAll('a[href],button,input,select,textarea,summary,[tabindex]')].filter(it => it.getClientRects().length);
seen.forEach((it, at) => it.dataset.stop = at);
document.activeElement.blur(); window.scrollTo(0, 0); getSelection().removeAllRanges();
return seen.length;"""
AT = """
const it = document.activeElement, style = getComputedStyle(it), box = it.getBoundingClientRect();
return {stop: it.dataset.stop === undefined ? -1 : +it.dataset.stop, outline: style.outlineStyle, width: parseFloat(style.outlineWidth), colour: style.outlineColor,
        seen: box.bottom > 0 && box.top < innerHeight && box.right > 0 && box.left < innerWidth};"""


def press(window, *keys):
    from selenium.webdriver.common.action_chains import ActionChains

    ActionChains(window, duration=0).send_keys(*keys).perform()


def tabbed(check, window, name):
    """The Tab key goes to each link and field in the order of the document, shows where it is, and leaves the last of them."""
    from selenium.webdriver.common.action_chains import ActionChains
    from selenium.webdriver.common.keys import Keys

    number, met = window.execute_script(STOPS), []
    for _ in range(number):
        press(window, Keys.TAB)
        met.append(window.execute_script(AT))
    stops = [it["stop"] for it in met]
    check(f"{name}: Tab goes to all {number} links and fields in order", stops == list(range(number)), str(stops))
    check(f"{name}: the focus is seen at each", all(it["outline"] != "none" and it["width"] >= 2 and it["seen"] for it in met), str([it for it in met if it["outline"] == "none" or not it["seen"]][:3]))
    check(f"{name}: and told from the ground", all(contrast(it["colour"], "rgb(255, 255, 255)") >= 3 for it in met), str({it["colour"] for it in met}))
    press(window, Keys.TAB)
    check(f"{name}: the last of them lets the focus go", window.execute_script(AT)["stop"] != number - 1)
    # (from a known place again: the last stop, and back by one)
    window.execute_script(f"document.querySelector('[data-stop=\"{number - 1}\"]').focus()")
    ActionChains(window, duration=0).key_down(Keys.SHIFT).send_keys(Keys.TAB).key_up(Keys.SHIFT).perform()
    check(f"{name}: Shift and Tab go back", number == 1 or window.execute_script(AT)["stop"] == number - 2, str(window.execute_script(AT)))


HIDDEN = "return [...document.querySelectorAll(arguments[0])].filter(it => it.getClientRects().length).map(it => it.outerHTML.slice(0, 80))"
UNSEEN = "return [...document.querySelectorAll('main, main [id], aside [id], footer')].filter(it => !it.getClientRects().length).map(it => it.id)"


def on_paper(check, window, name):
    """On paper what leads to other pages is left out; each provision, note and line of the footer stays, dark on white."""
    window.execute_cdp_cmd("Emulation.setEmulatedMedia", {"media": "print"})
    check(f"{name}: no navigation on paper", not window.execute_script(HIDDEN, "nav, .skip, form, button"), str(window.execute_script(HIDDEN, "nav, .skip, form, button")))
    check(f"{name}: every anchor on paper", not window.execute_script(UNSEEN), str(window.execute_script(UNSEEN)))
    told_apart(check, window, f"{name} on paper")
    window.execute_cdp_cmd("Emulation.setEmulatedMedia", {"media": ""})


def by_keyboard(check, window):
    """A session without a mouse: from the works to a text, past its links, and a form that is filled in."""
    from selenium.webdriver.common.keys import Keys

    def reach(sought):
        """Tabs to the first stop that a selector names."""
        for _ in range(80):
            if window.execute_script("return document.activeElement.matches(arguments[0])", sought):
                return True
            press(window, Keys.TAB)
        return False

    window.get(f"http://localhost:{PORT}/")
    check("Enter follows the link to an act", reach(f"a[href='{WORK}']") and came_to(window, f"{WORK}", Keys.ENTER), window.current_url)
    check("and the link to a day", reach(f"a[href='{WORK}/eng@2006-01-01']") and came_to(window, f"{WORK}/eng@2006-01-01", Keys.ENTER), window.current_url)
    check("the first stop of a page skips to its text", reach("a.skip") and came_to(window, f"{WORK}/eng@2006-01-01#text", Keys.ENTER), window.current_url)
    press(window, Keys.TAB)
    check("and the next stop stands in the text", window.execute_script("return document.querySelector('main').contains(document.activeElement)"))
    window.get(f"http://localhost:{PORT}/")
    reach("input[name=day]")
    press(window, *"2006-01-01")
    check("a day that is typed is sent by Enter", came_to(window, "/unapplied?day=2006-01-01", Keys.ENTER), window.current_url)
    window.get(f"http://localhost:{PORT}{SHOWN['draft']}")
    reach("summary")
    press(window, Keys.ENTER)
    check("Enter opens what is folded", window.execute_script("return document.querySelector('details').open"))


def came_to(window, address, key):
    press(window, key)
    for _ in range(50):
        if window.current_url == f"http://localhost:{PORT}{address}":
            return True
        time.sleep(0.05)
    return False


def asked(address):
    with urllib.request.urlopen(f"http://localhost:{PORT}{address}") as it:
        return json.loads(it.read())


def missing(shown, answer):
    """The first words of an answer that do not stand in what is shown, in their order; white space apart, since a page lays words out in its own way."""
    shown, at = "".join(shown.split()), 0
    for node, _, _ in desk.provisions(answer):
        for piece in (node["heading"], node["content"]):
            wanted = "".join(piece.split())
            found = shown.find(wanted, at)
            if found < 0:
                return f"'{piece}' of {node['eId']}"
            at = found + len(wanted)
    return ""


# The words of a page's main part without the signs of notes, and those of one side of a comparison without the marks of what came or went.
WORDS = "const it = document.querySelector('main').cloneNode(true); it.querySelectorAll('sup a').forEach(it => it.parentNode.remove()); return it.textContent"
SIDE = """const found = [...document.querySelectorAll(`.beside > div:nth-child(${arguments[0]})`)].map(it => it.cloneNode(true));
found.forEach(it => it.querySelectorAll('del,ins').forEach(it => it.textContent = it.textContent.slice(2, -2)));
return found.map(it => [...it.querySelectorAll('h2,h3,.words')].map(it => it.textContent).join('\\n')).join('\\n')"""


def said(check, window):
    """What the browser shows, word by word, is the desk's answer: of a text, of both sides of a comparison, and of what a draft changes."""
    for day in ("2001-06-01", "2006-01-01"):
        window.get(f"http://localhost:{PORT}{WORK}/eng@{day}")
        why = missing(window.execute_script(WORDS), asked(f"{WORK}/eng@{day}.json"))
        check(f"the browser says what the desk says on {day}", not why, why)
    window.get(f"http://localhost:{PORT}{SHOWN['comparison']}")
    first = asked(f"{WORK}/eng@2005-12-31.json")
    for side, answer in ((1, first), (2, asked(f"{WORK}/eng@2006-01-01.json"))):
        shown = window.execute_script(SIDE, side)
        check(f"side {side} of a comparison says what the desk says", not missing(shown, answer), missing(shown, answer))
    window.get(f"http://localhost:{PORT}{SHOWN['draft']}")
    gone = {"body": [it for part in asked(f"{WORK}/eng@2012-03-01.json")["body"] for it in part["children"] if it["eId"] == "sec_1"]}
    check("the page of a draft shows each word that goes", gone["body"] and not missing(window.execute_script(SIDE, 1), gone), missing(window.execute_script(SIDE, 1), gone))


def printed(check, window):
    """The page goes to paper."""
    window.get(f"http://localhost:{PORT}{SHOWN['text']}")
    made = base64.b64decode(window.execute_cdp_cmd("Page.printToPDF", {"printBackground": False})["data"])
    check("a text is printed", made.startswith(b"%PDF") and len(made) > 10_000, str(len(made)))


if __name__ == "__main__":
    failed = []
    checked(lambda name, holds, why="": print("ok    " if holds else "FAILED", name, "" if holds else why), sys.argv[1] if len(sys.argv) > 1 else None)
