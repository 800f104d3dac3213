"""front: a region with a client, the pages, and nginx before both."""
import contextlib
import getpass
import http.client
import os
import re
import shutil
import ssl
import subprocess
import urllib.parse

from lib import TOP
from lib.asking import FORM
from lib.cases import Case
from lib.tls import OPENSSL, make_certificate
from lib.waiting import free_port, listens, until

FOLDER = os.path.join(TOP, "examples/sign-in")
NGINX = shutil.which("nginx", path=os.environ.get("PATH", "") + ":/usr/sbin")
LACKING = "passed over: no nginx or no openssl (apt-get install nginx openssl)"
IS_HERE = bool(NGINX and OPENSSL)
WORDS = {"ann": "ann's word", "bob": "bob's word"}


class Reply:
    def __init__(self, reply):
        self.status, self.body = reply.status, reply.read().decode()
        self.place = reply.getheader("Location", "")
        self.cookies = reply.headers.get_all("Set-Cookie") or []
        self.fields = reply.headers

    def hidden(self, name):
        """The value of a hidden field of its form."""
        found = re.search('name="%s" value="([^"]*)"' % name, self.body)
        return found and found[1].replace("&amp;", "&")


class FrontCase(Case):
    def setUp(self):
        super().setUp()
        os.chmod(self.folder, 0o711)  # nginx works as a user of its own
        self.make_folder()
        self.region, self.port = self.tokend(1, options=(
            "--socket", self.path("front/socket"), "--inner", self.path("inner"),
            "--log", "{}/log")), free_port()
        self.pages = free_port()
        self.begin_pages()
        self.begin_nginx()
        self.client = self.add_client("https://app.example/cb")
        for port in self.pages, self.port:
            self.assertTrue(until(lambda: listens(port)))

    def path(self, name):
        return os.path.join(self.folder, name)

    def make_folder(self):
        """Makes the folder of the socket, for nginx's workers."""
        self.worker = "www-data" if os.geteuid() == 0 else getpass.getuser()
        subprocess.run([TOP + "/examples/systemd/front-folder", self.path("front"), self.folder,
                        self.worker if os.geteuid() == 0 else str(os.getegid())], check=True,
                       env=os.environ | {"TOKEND_SOCKET": self.path("front/socket")})

    def begin(self, *words):
        child = subprocess.Popen(words, stdin=subprocess.DEVNULL, stdout=subprocess.DEVNULL,
                                 stderr=open(self.path("said"), "ab"))
        self.addCleanup(child.wait)
        self.addCleanup(child.terminate)

    def begin_pages(self):
        """Starts the pages to sign in, with users and names of clients."""
        with open(self.path("users"), "w", encoding="utf-8") as users:
            for name, word in WORDS.items():
                subprocess.run([FOLDER + "/sign-in", "--user", name], input=word + "\n", text=True,
                               stdout=users, check=True)
        with open(self.path("names"), "w", encoding="utf-8") as names:
            names.write("c1-2:The calendar\nc1-3:<b>Mail</b>\n")
        self.begin(FOLDER + "/sign-in", str(self.pages), self.region.url,
                   self.path("users"), self.path("names"))

    def begin_nginx(self):
        """Starts nginx with the configuration of the example, and a certificate."""
        make_certificate(self.folder)
        with open(FOLDER + "/nginx.conf", encoding="utf-8") as file:
            text = self.added(file.read())
        for name, value in (("DIR", self.folder), ("FRONT", self.port), ("PAGES", self.pages),
                            ("TOKEND", "unix:" + self.region.socket), ("USER", self.worker)):
            text = text.replace("@%s@" % name, str(value))
        with open(self.path("nginx.conf"), "w", encoding="utf-8") as file:
            file.write(text)
        self.begin(NGINX, "-e", self.path("nginx.log"), "-c", self.path("nginx.conf"))
        self.tls = ssl.create_default_context(cafile=self.path("cert.pem"))

    def added(self, text):
        """The configuration of nginx, to which a test may add."""
        return text

    def admin(self, path, **fields):
        """The value that a request to the region's administration returns."""
        return next(iter(self.region.form(path, fields, status=201).values()))

    def add_client(self, place):
        return self.admin("/admin/client", kind="confidential", secret="s3cret",
                          scope="read write", redirects=place)

    def add_public(self, place):
        return self.admin("/admin/client", kind="public", scope="read", redirects=place)

    def wanted(self, **more):
        """The path of a request for a code."""
        return "/authorize?" + urllib.parse.urlencode(
            {"response_type": "code", "client_id": self.client, "state": "x/y z"} | more)

    def ask(self, method, path, cookie="", form=None, **fields):
        """A request at the front end."""
        link = http.client.HTTPSConnection("127.0.0.1", self.port, timeout=10, context=self.tls)
        more = ({"Cookie": cookie} if cookie else {}) | (FORM if form is not None else {}) | fields
        with contextlib.closing(link):
            link.request(method, path, None if form is None else urllib.parse.urlencode(form), more)
            return Reply(link.getresponse())

    def cookie_of(self, reply):
        self.assertEqual(len(reply.cookies), 1, reply.status)
        return reply.cookies[0].partition(";")[0]

    def sign_in(self, name="ann", path=None):
        """Signs in as a browser would: the cookie, and the last reply."""
        first = self.ask("GET", path or self.wanted())
        form = {"csrf": first.hidden("csrf"), "next": first.hidden("next"), "name": name,
                "password": WORDS[name]}
        said = self.ask("POST", "/sign-in", self.cookie_of(first), form)
        self.assertEqual(said.status, 303, said.body)
        return self.cookie_of(said), said

    def consents(self):
        """How many facts the region has: each consent is one."""
        return sum(self.region.held_to().values())
