"""fronts: nginx of the page, nginx of both sites' doors, and Prometheus, as their examples say."""
import getpass
import json
import os
import re
import shutil
import subprocess

from lib import TOP
from lib.tls import OPENSSL
from lib.waiting import free_port, listens, until

EXAMPLES = os.path.join(TOP, "examples")
PATHS = os.environ.get("PATH", "") + ":/usr/sbin"
NGINX, PROMETHEUS = (shutil.which(it, path=PATHS) for it in ("nginx", "prometheus"))
LACKING = "passed over: no nginx or no openssl (apt-get install nginx openssl)"
IS_HERE = bool(NGINX and OPENSSL)
NAMES = "one", "two"
USER, WORD = "ann", "ann's word"
# nginx's workers reach the sockets of the sites: as root's group, if root runs this
WORKER = "nobody root" if os.geteuid() == 0 else getpass.getuser()


def filled(path, values):
    """A configuration of the examples with values in the place of its names in @."""
    with open(os.path.join(EXAMPLES, path), encoding="utf-8") as file:
        return re.sub("@([A-Z_]+)@", lambda it: str(values[it[1]]), file.read())


def write(path, text):
    with open(path, "w", encoding="utf-8") as file:
        file.write(text)


def begin(case, *words, said="said"):
    """A child of a test, whose output goes to a file of its folder."""
    with open(os.path.join(case.folder, said), "ab") as file:
        child = subprocess.Popen(words, stdin=subprocess.DEVNULL, stdout=file, stderr=file)
    case.addCleanup(child.wait)
    case.addCleanup(child.terminate)
    return child


def begin_nginx(case, folder, text):
    write(os.path.join(folder, "nginx.conf"), text)
    log = os.path.join(folder, "nginx.log")
    return begin(case, NGINX, "-e", log, "-c", os.path.join(folder, "nginx.conf"))


def begin_ways(case):
    """What doors and ways need: certificates, a folder, and ports, which are returned by name."""
    script, ca = os.path.join(EXAMPLES, "between-sites/certificates"), case.path("ca")
    for words in (["ca", ca], *(["site", ca, it] for it in NAMES)):
        subprocess.run([script, *words], check=True, capture_output=True)
    os.mkdir(case.path("ways"), 0o711)
    return {it: free_port() for it in NAMES}


def begin_door(case, name, inner, ports):
    """The door of a site, with what the page asks of it, and its way to its peer."""
    folder, ca, peer = case.path("door-" + name), case.path("ca"), NAMES[name == "one"]
    os.makedirs(folder, 0o711, exist_ok=True)
    for it in "ca.pem", name + ".pem", name + ".key":
        shutil.copy(os.path.join(ca, it), folder)
    text = filled("between-sites/nginx.conf", {
        "DIR": folder, "SITE": name, "USER": WORKER, "TOKEND": "unix:" + inner, "PEER": peer,
        "DOOR": ports[name], "WAY": "unix:" + case.path("ways", peer),
        "CLIENTS": "unix:" + case.path("ways", peer + "-clients"),
        "PEER_DOOR": "127.0.0.1:%d" % ports[peer]})
    more = filled("operators/door.conf", {"METRICS": case.path("metrics", name + ".prom")})
    at = "        location = /sync/vector {"
    case.assertEqual(text.count(at), 1)
    child = begin_nginx(case, folder, text.replace(at, more + at))
    case.assertTrue(until(lambda: listens(ports[name])), name)
    return child


def without_alerts(text):
    """A configuration of the page without Prometheus."""
    found = re.findall(r"(?s)        location = /alerts {.*?\n        }\n", text)
    assert len(found) == 1, found
    return text.replace(found[0], "")


def begin_page(case, inner, prometheus, **settings):
    """nginx of the page, at machine one: returns its port. Settings differ from the example's.

    Without a port of Prometheus alerts have no place.
    """
    folder, files, port = case.path("page"), case.path("files"), free_port()
    os.mkdir(folder, 0o711)
    shutil.copytree(os.path.join(EXAMPLES, "operators/page"), files)
    with open(os.path.join(files, "settings.json"), encoding="utf-8") as file:
        given = json.load(file) | settings
    write(os.path.join(files, "settings.json"), json.dumps(given))
    kept = subprocess.run([OPENSSL, "passwd", "-6", "-stdin"], input=WORD + "\n", text=True,
                          check=True, stdout=subprocess.PIPE).stdout
    write(os.path.join(folder, "users"), "%s:%s" % (USER, kept))
    text = filled("operators/nginx.conf", {
        "USER": WORKER, "DIR": folder, "PAGE": port, "FILES": files, "TOKEND": "unix:" + inner,
        "WAY": "unix:" + case.path("ways", "two"), "PROMETHEUS": "127.0.0.1:%s" % prometheus,
        "METRICS": case.path("metrics", "one.prom")})
    begin_nginx(case, folder, text if prometheus else without_alerts(text))
    case.assertTrue(until(lambda: listens(port)))
    return port


def rules(is_short):
    """The alert rules of the example, without the one that node_exporter isn't there.

    Short ones wait for two seconds alone.
    """
    mark = "      - alert: "
    with open(os.path.join(EXAMPLES, "metrics/rules.yml"), encoding="utf-8") as file:
        parts = file.read().split(mark)
    text = mark.join(it for it in parts if not it.startswith("TokendNodeMetricsAbsent"))
    return re.sub(r"(?m)^(        for: )\d+m$", r"\g<1>2s", text) if is_short else text


def begin_prometheus(case, port, page, is_short):
    """Prometheus, which reads the metrics by the page's nginx."""
    write(case.path("rules.yml"), rules(is_short))
    jobs = ["  - job_name: %s\n    metrics_path: /sites/%s/metrics\n"
            "    basic_auth: {username: %s, password: \"%s\"}\n"
            "    static_configs: [{targets: ['127.0.0.1:%d']}]\n" % (it, it, USER, WORD, page)
            for it in NAMES]
    write(case.path("prometheus.yml"),
          "global: {scrape_interval: 1s, evaluation_interval: 1s}\nrule_files: [rules.yml]\n"
          "scrape_configs:\n" + "".join(jobs))
    begin(case, PROMETHEUS, "--config.file=" + case.path("prometheus.yml"),
          "--storage.tsdb.path=" + case.path("tsdb"),
          "--web.listen-address=127.0.0.1:%d" % port, said="prometheus.said")
    case.assertTrue(until(lambda: listens(port)))
