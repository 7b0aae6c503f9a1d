"""Tries deploy/web/locks.html in a browser, headless Chromium, at a running server with nginx and deploy/nginx/site.

A check fails if the page shows something else than the program lists, if a lock is released that may not be, if the
page cannot be used by keyboard or in a narrow window, or if nginx serves more than the page without a token.
"""
import contextlib
import datetime
import itertools
import json
import os
import re
import signal
import statistics
import sys
import tempfile
import time
import zoneinfo
from pathlib import Path

from selenium.webdriver.common.by import By
from selenium.webdriver.common.keys import Keys
from selenium.webdriver.support.expected_conditions import alert_is_present

from tests.site.browser import Page
from tests.studio.checks import Checks, arguments, comes_true, require
from tests.studio.policy import GAME, MAIN, WORK, row
from tests.studio.program import LOCKS, TOP, lock, message, target
from tests.studio.site import Site

ZONE = "America/St_Johns"
POLICY = (
    row("deny", ["eve"], ["pull", "push"], repos=["*"]),
    row("allow", ["ann"], ["force"]),
    row("allow", ["ann", "bob"], WORK),
    row("allow", ["vic"], ["pull", "list"]),
)
MARKUP = "art/<script>document.title='x'</script><img src=x onerror=alert(1)>.psd"
REVERSED = "art/hero\u202edsp.exe"
# Paths that look like others, and what the page shows of them: a reversed name, a space that does not break, a letter in its
# decomposed form, a blank that no font draws, a space before a slash; and one in its composed form, which is as it is.
SHOWN = {
    REVERSED: "art/hero\\u{202e}dsp.exe",
    "art/hero\u00a01.psd": "art/hero\\u{a0}1.psd",
    "art/cafe\u0301.psd": "art/cafe\\u{301}.psd",
    "art/hero\u2800.psd": "art/hero\\u{2800}.psd",
    "art /hero.psd": "art\\u{20}/hero.psd",
    "art/gr\u00fcn.psd": "art/gr\u00fcn.psd",
}
NO_FORCE = "art/shot10.psd: P0: no policy row allows force"
RELEASE, OTHER = "refs/heads/release/1.0", "refs/heads/other"
FIRST = [("ann", "art/hero.psd", MAIN), ("bob", "art/ship.psd", MAIN), ("ann", "art/tree 2.psd", RELEASE),
         ("bob", MARKUP, MAIN), ("ann", REVERSED, MAIN), ("ann", "art/shot10.psd", MAIN),
         ("bob", "art/shot9.psd", RELEASE), ("bob", "art/left.psd", MAIN), ("ann", "art/none.psd", OTHER),
         ("bob", "art/nobody.psd", OTHER), *(("bob", path, MAIN) for path in SHOWN if path != REVERSED)]
COLUMNS = ("path", "owner", "since", "branch")


class Studio(Site):
    """A site without sshd, and what its nginx has logged and keeps."""

    def locks(self):
        """What `custody locks` prints: id, ref, owner, moment and path of each."""
        return [tuple(line.split(" ", 4)) for line in self.server.locks()]

    def paths(self):
        """The paths that are locked."""
        return {path for _, _, _, _, path in self.locks()}

    def asked(self):
        """How many requests of the API nginx has logged."""
        time.sleep(0.3)
        return Path(self.room, "custody.access.log").read_text().count(".git/")

    def kept(self):
        """How many bodies nginx keeps: it removes the name of such a file at once, and has it open."""
        links = []
        for folder in Path("/proc").glob("[0-9]*/fd"):
            with contextlib.suppress(OSError):
                links += [os.readlink(it) for it in folder.iterdir()]
        return sum(link.startswith(f"{self.room}/spool/requests/") for link in links)

    def get(self, where, headers=None):
        """The reply of nginx, and its body."""
        with contextlib.closing(self.connect(timeout=20)) as connection:
            connection.request("GET", where, headers=headers or {})
            reply = connection.getresponse()
            return reply, reply.read().decode()


def escaped(path):
    """A path as the page shows it."""
    return SHOWN.get(path, path)


def branch_of(ref, named):
    """What the page calls the branch of a lock, if these are named."""
    return ref.removeprefix("refs/heads/") if ref in named else "another"


def expected(site, named):
    """The rows that the page is to show for what `custody locks` prints, sorted."""
    rows = []
    for _, ref, owner, moment, path in site.locks():
        utc = datetime.datetime.strptime(moment, "%Y-%m-%dT%H:%M:%SZ").replace(tzinfo=datetime.timezone.utc)
        since = utc.astimezone(zoneinfo.ZoneInfo(ZONE)).strftime("%Y-%m-%d %H:%M")
        rows.append((escaped(path), owner, since, branch_of(ref, named)))
    return sorted(rows)


def natural(text):
    """Numbers within a text count as numbers."""
    return [(0, int(part), "") if part.isdigit() else (1, 0, part) for part in re.split(r"(\d+)", text) if part]


def try_nginx(site):
    """What nginx serves without a token."""
    reply, text = site.get("/locks")
    page = (TOP / "deploy/web/locks.html").read_text()
    site.expect(reply.status == 200 and text == page and reply.headers["Content-Type"] == "text/html; charset=utf-8",
                "nginx serves the page without a token", reply.headers)
    heads = {"X-Content-Type-Options": "nosniff", "Referrer-Policy": "no-referrer", "Cache-Control": "no-cache"}
    site.expect(heads.items() <= dict(reply.headers).items(), "with its heads", reply.headers)
    security = reply.headers["Content-Security-Policy"]
    sources = re.sub(r"'sha256-[A-Za-z0-9+/]{43}='", "HASH", security)
    site.expect(sources == "default-src 'none'; script-src HASH; style-src HASH; connect-src 'self'; img-src data:; "
                "base-uri 'none'; form-action 'none'; frame-ancestors 'none'", "and its security policy", security)
    for where in ("/", "/locks/", "/locks/x", "/LOCKS", "/locks%0a", "/x/locks", LOCKS, "/-/token"):
        reply, text = site.get(where)
        site.expect(reply.status == 401 and "A1: a bearer token is needed" in text, f"{where} without a token is 401",
                    text)


def try_bodies(site):
    """What nginx keeps of bodies that are not whole."""
    with contextlib.closing(site.connect(timeout=20)) as connection:
        connection.request("POST", "/locks", b"x" * 200_000, {"Content-Length": "2000000"})
        status = connection.getresponse().status
        connection.send(b"x" * 200_000)
        time.sleep(0.5)
        site.equal((status, site.kept()), (405, 0), "a body that is sent to /locks is refused, and not kept")
    with contextlib.closing(site.connect(timeout=20)) as connection:
        head = json.loads(site.server.line("ann"))["header"]
        connection.request("POST", LOCKS, b"x" * 200_000, {**head, "Content-Length": "900000"})
        time.sleep(0.5)
        site.equal(site.kept(), 1, "one that is sent to the API with a token is kept until it is whole")


def try_nginx_without_default(site):
    """The same site where the map of the servers has no default."""
    config = Path(site.room, "site")
    whole = config.read_text()
    config.write_text(whole.replace("    default custody;\n", '    "~^/studio/film\\.git/" custody;\n', 1))
    site.children[0].send_signal(signal.SIGHUP)
    head = {"Authorization": f"Bearer {'0' * 64}"}
    comes_true(lambda: "H6" in site.get(target("locks", GAME), head)[1], 10)
    # The processes with the old site end within this second.
    time.sleep(1)
    asked = [("/locks",), (LOCKS, head), (target("locks", GAME), head), ("/locks/", head), ("/locks/",)]
    statuses = [site.get(*words)[0].status for words in asked]
    site.equal(statuses, [200, 401, 404, 404, 401], "a site without a default server serves the page")
    config.write_text(whole)
    site.children[0].send_signal(signal.SIGHUP)
    time.sleep(1)


def try_form(site, page):
    """The form that asks for the line of a token."""
    asked = site.asked()
    page.open()
    page.picture("form")
    site.equal(page.browser.get_log("browser"), [], "the page loads, and the console of the browser has no error")
    site.expect(page.at("line").is_displayed() and not page.at("list").is_displayed(), "it asks for a token")
    command = "ssh custody@localhost git-lfs-authenticate studio/film upload"
    site.equal(page.at("command").text, command, "and shows the command that prints one")
    site.equal(site.asked(), asked, "without a token it sends no request")
    line = json.loads(site.server.line("ann"))
    no_token = {**line, "header": {}}
    other = {**line, "href": line["href"].replace("localhost", "lfs.example")}
    no_repository = {**line, "href": f"{site.server.base}//lfs.example/studio/film.git/info/lfs"}
    others = ("hello", "null", json.dumps(line)[:-9], line["header"]["Authorization"])
    cases = [*((text, "This is not the line") for text in others),
             *((json.dumps(it), "This line has no token") for it in (no_token, no_repository)),
             (json.dumps(other), "This token is for https://lfs.example:")]
    for text, words in cases:
        page.paste(text)
        page.until(lambda: page.status() != "")
        found = page.status()
        site.expect(found.startswith(words) and page.focus() == "line" and page.at("line").get_attribute("value") == "",
                    f"what is no line is refused in words: {found}", found)
    site.equal(site.asked(), asked, "and no request is sent for it")
    site.equal(page.run("return sessionStorage.getItem('line')"), None, "nor is it kept")


def try_list(site, page):
    """The list of the locks."""
    folded = re.sub("(.{72})", "\\1\n", site.server.line("ann"))
    site.expect(page.enter(folded), "a line that a terminal has broken is taken", page.status())
    site.equal(page.focus(), "filter", "the focus is on the field that finds")
    page.name_branches("main, release/1.0")
    wanted = expected(site, {MAIN, RELEASE})
    site.equal((sorted(page.rows()), len(wanted)), (wanted, len(FIRST)),
               f"{len(wanted)} locks of two users are shown as `custody locks` prints them")
    moments = page.run("return [...document.querySelectorAll('#rows time')].map(it => it.dateTime)")
    site.equal(sorted(moments), sorted(lock[3] for lock in site.locks()), "with the moment of each")
    site.equal(page.status(), "", "and no refusal")
    page.picture("list")
    ours = page.run("return [...document.querySelectorAll('#rows .ours')].map(row => row.children[0].textContent)")
    own = {escaped(path) for user, path, ref in FIRST if user == "ann" and ref in (MAIN, RELEASE)}
    site.equal(set(ours), own, "ann's own are marked")
    site.expect(MARKUP in page.shown(), "a path with elements of HTML is shown as text")
    for path, shown in SHOWN.items():
        site.expect(shown in page.shown(), f"of {path!a} is shown {shown}")
    elements = page.run("return document.querySelectorAll('#rows img, #rows script').length")
    found = page.browser.title, alert_is_present()(page.browser), elements
    site.equal(found, ("Locks of studio/film", False, 0), "and nothing of it runs")
    page.browser.refresh()
    site.expect(page.until(page.is_read) and sorted(page.rows()) == wanted, "a reload of the tab shows it again")
    page.name_branches("refs/heads/release/1.0 refs/tags/none")
    site.equal(sorted(page.rows()), expected(site, {RELEASE}), "branches are named by whole refs too")
    page.name_branches("main grün")
    site.expect(page.status() == "Branch grün: J2: a field is out of range" and len(page.rows()) == len(FIRST),
                "a branch that the server refuses is named, and the rest is shown", page.status())
    page.name_branches("main, release/1.0")


def try_filter(site, page):
    """What is typed into the field that finds."""
    wanted = expected(site, {MAIN, RELEASE})
    for word in ("HERO", "bob", "release/"):
        for end in range(1, len(word) + 1):
            page.search(word[:end])
            part = word[:end].lower()
            rows = [row for row in wanted if any(part in row[place].lower() for place in (0, 1, 3))]
            count = f"{len(rows)} of {len(wanted)} locks"
            if (sorted(page.rows()), page.at("count").text) != (sorted(rows), count):
                site.expect(False, f"what contains {part}", f"{page.rows()}\n{rows}\n{page.at('count').text}")
        site.expect(page.at("count").text == count, f"the list follows as {word} is typed: {count}")
    page.search("")


def check_order(site, page, by, falling):
    """The list is in the order of Python's sort, by this column, and then by path."""
    moments = {escaped(path): moment for _, _, _, moment, path in site.locks()}
    place = COLUMNS.index(by)
    rows = sorted(expected(site, {MAIN, RELEASE}), key=lambda row: natural(row[0]))
    rows.sort(key=lambda row: natural(moments[row[0]] if by == "since" else row[place]), reverse=falling)
    rising = page.run("return [...document.querySelectorAll('th')].map(it => it.ariaSort)")
    states = ["none"] * 4
    states[place] = "descending" if falling else "ascending"
    site.expect(page.rows() == rows and rising == states, f"the order is {states[place]} by {by}",
               "\n".join(f"{one} {other}" for one, other in zip(page.rows(), rows) if one != other)[:500] + str(rising))


def try_order(site, page):
    """The order of the list."""
    check_order(site, page, "path", False)
    headers = {by: page.browser.find_element(By.CSS_SELECTOR, f"th button[value={by}]") for by in COLUMNS}
    for by, falling in itertools.product(("owner", "since", "branch", "path"), (False, True)):
        headers[by].click()
        check_order(site, page, by, falling)
    page.at("filter").click()
    page.press(Keys.TAB * 4, Keys.ENTER)
    check_order(site, page, "owner", False)
    site.equal(page.focus(), "Owner", "by keyboard too, and the focus stays")
    headers["path"].click()


def try_keyboard(site, page):
    """The question, by keyboard."""
    page.at("filter").click()
    for _ in itertools.takewhile(lambda _: page.focus() != "Release art/hero.psd", range(60)):
        page.press(Keys.TAB)
    site.equal(page.focus(), "Release art/hero.psd", "Tab leads to the button of a lock")
    page.press(Keys.ENTER)
    text = page.question()
    site.expect("art/hero.psd" in text and "ann (you)" in text, "Enter asks, with the path and the owner", text)
    page.picture("question")
    page.press(Keys.ESCAPE)
    page.until(lambda: not page.is_asking())
    site.expect("art/hero.psd" in site.paths() and "art/hero.psd" in page.shown(), "Escape changes nothing")
    site.equal(page.focus(), "Release art/hero.psd", "and returns to the button")
    page.press(Keys.ENTER)
    page.question()
    focused = []
    while focused[-1:] != ["cancel"]:
        page.press(Keys.TAB)
        focused.append(page.focus())
    site.expect(set(focused) <= {"cancel", "confirm", "body"}, "Tab stays within the question", focused)
    page.press(Keys.ENTER)
    page.until(lambda: not page.is_asking())
    site.expect("art/hero.psd" in site.paths(), "Cancel changes nothing")
    page.press(Keys.ENTER)
    page.question()
    page.press(Keys.ENTER)
    page.until(lambda: page.status() == "art/hero.psd is released.")
    site.equal(page.status(), "art/hero.psd is released.", "Enter releases ann's own lock")
    site.expect("art/hero.psd" not in site.paths() | page.shown(), "`custody locks` no longer has it, nor has the page")
    site.expect(page.focus().startswith("Release art/"), f"the focus is on the next: {page.focus()}", page.focus())


def try_force(site, page):
    """Locks of others."""
    page.enter(site.server.line("bob"))
    page.name_branches("main")
    questions, words = page.release("art/shot10.psd", "confirm")
    site.expect(words == NO_FORCE and "Release the lock of ann?" in questions[0],
                "bob may not release ann's lock", f"{questions} {words}")
    page.picture("refusal")
    site.expect("art/shot10.psd" in site.paths() & page.shown(), "which stays")
    page.enter(site.server.line("ann"))
    page.button("art/ship.psd").click()
    text = page.question()
    site.expect("locked by bob" in text and "lost or overwritten" in text and page.focus() == "cancel",
                "ann is asked about bob's lock, and Cancel has the focus", text)
    page.picture("question-force")
    page.press(Keys.ENTER)
    page.until(lambda: not page.is_asking())
    site.expect("art/ship.psd" in site.paths(), "so that Enter changes nothing")
    _, words = page.release("art/ship.psd", "confirm")
    left = site.paths() | page.shown()
    site.expect(words == "art/ship.psd is released." and "art/ship.psd" not in left, "ann releases it", words)
    questions, words = page.release("art/nobody.psd", "confirm", "confirm")
    asked = ["lost or overwritten" in it for it in questions]
    is_gone = words == "art/nobody.psd is released." and "art/nobody.psd" not in site.paths()
    site.expect(is_gone and asked == [False, True],
                "and one of a branch that is not named, after two questions", f"{questions} {words}")
    _, words = page.release("art/none.psd", "confirm")
    site.expect(words == "art/none.psd is released." and "art/none.psd" not in site.paths(),
                "and ann's own there, after one", words)


def try_race(site, page):
    """A lock that somebody else has released."""
    page.enter(site.server.line("ann"))
    number = next(lock[0] for lock in site.locks() if lock[4] == "art/left.psd")
    unlock = message("POST", target(f"locks/{number}/unlock"), {}, site.server.token(user="bob"))
    site.equal(site.server.ask(unlock)[0], 200, "bob releases a lock that ann has on the page")
    _, words = page.release("art/left.psd", "confirm")
    site.expect(words == "art/left.psd: L2: no such lock" and "art/left.psd" not in page.shown(),
                "ann gets the words of L2, and the row goes", words)
    site.expect(page.focus().startswith("Release art/"), "the focus is on the next", page.focus())


def try_rights(site, page):
    """Users and tokens that may do less."""
    page.enter(site.server.line("vic"))
    site.equal((sorted(page.rows()), page.status()), (expected(site, {MAIN}), ""),
               "who may not push has the list with its branches")
    questions, words = page.release("art/shot10.psd", "confirm", "confirm")
    site.expect(words == NO_FORCE and "Release the lock of ann?" in questions[1],
                "and is refused after the question of force", f"{questions} {words}")
    page.enter(site.server.line("ann", "download"))
    site.equal((sorted(page.rows()), page.status()), (expected(site, {MAIN}), ""), "a download token shows the list")
    _, words = page.release("art/shot10.psd", "confirm")
    site.expect(words == "art/shot10.psd: A5: the token does not cover this"
                and "art/shot10.psd" in site.paths() & page.shown(), "and releases nothing", words)
    page.enter(site.server.line("eve"))
    denied = "P1: policy row 1 denies pull"
    site.equal((page.status(), page.rows()), (f"Branch main: {denied}\nAll branches: {denied}", []),
               "who may not list has the words of the policy")


def try_token(site, page):
    """A token that expires, and one that is forgotten."""
    site.change_policy(seconds=2)
    page.enter(site.server.line("ann"))
    site.expect(len(page.rows()) == len(site.locks()), "a token of 2 seconds shows the list", page.status())
    time.sleep(2.1)
    page.at("branches").send_keys(Keys.ENTER)
    page.until(lambda: page.at("line").is_displayed())
    site.equal(page.status(), "A3: the token has expired", "when it has expired, the words are shown")
    kept = page.run("return sessionStorage.getItem('line')")
    site.expect(page.focus() == "line" and page.rows() == [] and kept is None and not page.at("list").is_displayed(),
                "with the form, and without the list and the token", page.focus())
    page.picture("expired")
    site.change_policy()
    page.paste(site.server.line("ann"))
    page.until(page.is_read)
    page.at("forget").click()
    kept = page.run("return [sessionStorage.getItem('line'), document.body.textContent.includes('art/')]")
    site.expect(kept == [None, False] and page.at("line").is_displayed(), "`Forget the token` removes it, and the list",
                kept)


def try_many(site, page, count):
    """Many locks."""
    token = site.server.token()
    with site.server.client() as client:
        for number in range(count - len(site.locks())):
            path = f"art/sequence{number % 40}/shot{number}/hero.psd"
            client.ask(lock(path, token, ref=(MAIN, RELEASE)[number % 2]))
    asked = site.asked()
    page.open()
    began = time.monotonic()
    page.paste(site.server.line("bob"))
    whole = page.until(lambda: page.at("count").text == f"{count} of {count} locks")
    taken = time.monotonic() - began
    page.until(page.is_read)
    site.expect(whole and sorted(page.rows()) == expected(site, {MAIN}) and taken < 5,
                f"{count} locks are shown in {site.asked() - asked} requests, in {taken:.2f} s")
    page.name_branches("main release/1.0")
    check_order(site, page, "path", False)
    typed = ("h", "he", "her", "", "s", "sh", "sho", "shot1", "", "b")
    times = [page.letter(text) for text in typed]
    middle = statistics.median(times)
    site.expect(middle < 100, f"a typed letter takes {middle:.0f} ms, at most {max(times):.0f}")
    page.search("shot12")
    page.picture("found")
    page.search("")


def try_far_rows(site, page):
    """Rows outside of the window, which the browser does not draw."""
    names = page.run("return [...document.querySelectorAll('#rows button')].map(it => it.ariaLabel)")
    page.run("document.querySelectorAll('#rows button')[700].focus()")
    page.press(Keys.TAB)
    covered = page.run("""const box = document.activeElement.getBoundingClientRect();
        return document.elementFromPoint(box.x + box.width / 2, box.y + box.height / 2) !== document.activeElement""")
    site.expect(page.focus() == names[701] and not covered, "Tab leads to a row outside of the window", page.focus())
    parts = ("table", "th", "#rows tr:nth-child(702)", "#rows tr:nth-child(702) td")
    roles = [page.browser.find_element(By.CSS_SELECTOR, name).aria_role for name in parts]
    site.equal(roles, ["table", "columnheader", "row", "cell"], "for a screen reader it is a table")


def try_narrow(site, page):
    """A narrow window, and dark colours."""
    page.run("scrollTo(0, 0)")
    page.resize(360, 740)
    page.picture("narrow")
    site.expect(page.stays_inside(360), "a window of 360 pixels holds the list, and its buttons")
    page.button("art/shot10.psd").click()
    text = page.question()
    site.expect("art/shot10.psd" in text and page.stays_inside(360), "and the question", text)
    page.picture("narrow-question")
    page.press(Keys.ESCAPE)
    page.colours("dark")
    page.resize(1100, 760)
    page.run("scrollTo(0, 0)")
    page.picture("dark")
    page.button("art/shot10.psd").click()
    page.question()
    page.picture("dark-question")
    page.press(Keys.ESCAPE)
    page.colours("light")
    page.at("forget").click()
    page.resize(360, 740)
    page.picture("narrow-form")
    site.expect(page.stays_inside(360), "and the form")
    page.resize(1100, 760)


def try_end(site, page):
    """A server that is down; and what the browser and nginx have kept."""
    page.enter(site.server.line("ann"))
    site.server.end(signal.SIGTERM)
    _, words = page.release("art/shot10.psd", "confirm")
    site.equal(words, "art/shot10.psd: the LFS server is not reachable now; try again in a minute",
               "while the server is down, the words of nginx are shown")
    page.at("branches").send_keys(Keys.ENTER)
    page.until(lambda: page.status().startswith("Branch main"))
    site.expect("All branches: the LFS server is not reachable now" in page.status(), "for the list too", page.status())
    kept = page.run("return [localStorage.length, document.cookie, Object.keys(sessionStorage).sort().join()]")
    site.expect(kept == [0, "", "branches,line"] and page.browser.get_cookies() == [],
                "no cookie is kept, and nothing beyond the tab", kept)
    log = Path(site.room, "custody.access.log").read_text()
    site.expect(not re.search("[0-9a-f]{64}", log), "nginx has logged no token")
    errors = [it["message"] for it in page.browser.get_log("browser") if it["source"] != "network"]
    site.equal(errors, [], "the console has no error but the refusals")


def try_page(site, page):
    """What the page does, from the form to a server that is down."""
    try_form(site, page)
    for user, path, ref in FIRST:
        status = site.server.lock(path, site.server.token(user=user), ref)
        require(status == 201, f"{path!r} could not be locked: {status}")
    for part in (try_list, try_filter, try_order, try_keyboard, try_force, try_race, try_rights, try_token):
        part(site, page)
    try_many(site, page, 1500)
    try_far_rows(site, page)
    try_narrow(site, page)
    try_end(site, page)


def main():
    """Runs the suite."""
    parser = arguments(__doc__)
    parser.add_argument("--pictures", type=Path, metavar="FOLDER", help="pictures of the page go to this folder")
    options = parser.parse_args()
    if options.pictures:
        options.pictures.mkdir(parents=True, exist_ok=True)
    checks = Checks()
    with tempfile.TemporaryDirectory() as room, Studio(options.program, room, POLICY, checks) as site:
        site.start_nginx()
        for part in (try_nginx, try_bodies, try_nginx_without_default):
            checks.part(part.__name__, lambda: part(site))
        with Page(site.server.base, ZONE, options.pictures) as page:
            checks.part("the page", lambda: try_page(site, page))
    return checks.end()


if __name__ == "__main__":
    sys.exit(main())
