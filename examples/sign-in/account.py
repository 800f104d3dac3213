"""account: what a subject has at a region, and how to end it. `sign-in` shows it as a page."""
import html
import json
import time
from urllib.parse import urlencode

PAGES = 40  # of 128 consents and 128 logins each: more than that isn't shown
STATES = {"active": "signed in", "waiting": "signing in"}  # others are over for the user
NONE = "<tr><td>None"


class Refused(Exception):
    """What the region said in place of what was asked for."""


def day(moment):
    return time.strftime("%Y-%m-%d %H:%M UTC", time.gmtime(moment))


def row(client, what, until, last):
    """A row of a table: three texts, and HTML."""
    texts = [html.escape(it) for it in (client, what, until)]
    return "<tr><td>" + "<td>".join(texts + [last])


def button(name, value, text):
    return '<button name="%s" value="%s">%s</button>' % (name, value, text)


class Account:
    """The live consents and the logins of a subject, as the region lists them now.

    `ask` is a request to the region: method, path, form and header fields give status, `Location`
    and body.
    """

    def __init__(self, ask, subject):
        self.ask, self.subject, self.consents, self.logins = ask, subject, [], []
        cursors = {}
        for _ in range(PAGES):
            page = self.page(cursors)
            self.consents += page["consents"]
            self.logins += [it for it in page["logins"] if it["state"] in STATES]
            if "next_consent" not in page and "next_login" not in page:
                return
            for name, items, member in (("consents_after", page["consents"], "consent_id"),
                                        ("logins_after", page["logins"], "login_id")):
                if items:
                    cursors[name] = items[-1][member]

    def page(self, cursors):
        where = "/admin/subject?" + urlencode({"subject": self.subject} | cursors)
        status, _, said = self.ask("GET", where)
        if status != 200:
            raise Refused(said)
        return json.loads(said)

    def end(self, path, **form):
        """Sends the region what ends a login, a consent, or all, in the subject's name."""
        status, _, said = self.ask("POST", path, form, **{"X-Operator": self.subject})
        if status != 200:
            raise Refused(said)

    def act(self, form):
        """Ends what a form names, if it is this subject's: the region would end anybody's."""
        login, consent = form.get("end"), form.get("withdraw")
        if login in [it["login_id"] for it in self.logins]:
            self.end("/admin/logout", login_id=login)
        elif consent in [it["consent_id"] for it in self.consents]:
            self.end("/admin/withdraw", consent_id=consent)
        elif form.get("all"):
            self.end("/admin/signout", subject=self.subject)

    def rows(self, title):
        """The rows of both tables as HTML. `title` names a client by its id."""
        return {"logins": "\n".join(row(
                    title(it["client_id"]), "%s since %s" % (STATES[it["state"]], day(it["iat"])),
                    "until " + day(it["exp"]),
                    button("end", it["login_id"], "End") if it["state"] == "active" else "")
                    for it in self.logins) or NONE,
                "consents": "\n".join(row(
                    title(it["client_id"]), it["scope"], "",
                    button("withdraw", it["consent_id"], "Withdraw"))
                    for it in self.consents) or NONE}
