"""unit: reads a unit of systemd, and runs its lines as systemd would, without its sandbox."""
import os
import re
import shlex
import subprocess


def settings(text):
    """The values of each name, in order."""
    found = {}
    for line in re.sub(r"\\\n", " ", text).splitlines():
        if re.match(r"[A-Za-z]+=", line):
            name, _, value = line.partition("=")
            found.setdefault(name, []).append(value)
    return found


def variables(text):
    """The variables of a file for EnvironmentFile."""
    lines = [it for it in text.splitlines() if it and it[0] not in "#;"]
    return dict(it.partition("=")[::2] for it in lines)


def words(line, environ):
    """The arguments of a line: `${X}` within a word is its value, `$X` alone the words of it."""
    found = []
    for word in shlex.split(line):
        if re.fullmatch(r"\$\w+", word):
            found += environ.get(word[1:], "").split()
        else:
            found.append(re.sub(r"\$\{(\w+)\}", lambda it: environ.get(it[1], ""), word))
    return found


class Unit:
    """An instance of a unit below a root, whose commands and files are those of that root."""

    def __init__(self, root, name, instance):
        self.root, self.instance = root, instance
        path = os.path.join(root, "lib/systemd/system", name)
        with open(path, encoding="utf-8") as file:
            self.settings = settings(file.read().replace("%i", instance))

    def below(self, path):
        """A path in the root, if it is there, or else the path itself."""
        place = os.path.join(self.root, path.lstrip("/"))
        return place if path.startswith("/") and os.path.exists(place) else path

    def environ(self, **more):
        """The variables of its files and folders."""
        it = {"PATH": os.path.join(self.root, "usr/bin") + ":/usr/bin:/bin", "LANG": "C.UTF-8"}
        for line in self.settings.get("Environment", []):
            pairs = (word.partition("=")[::2] for word in shlex.split(line))
            it |= {name: self.below(value) for name, value in pairs}
        for path in self.settings.get("EnvironmentFile", []):
            place = os.path.join(self.root, path.lstrip("-/"))
            if os.path.exists(place) or not path.startswith("-"):
                with open(place, encoding="utf-8") as file:
                    it |= variables(file.read())
        for kind, parent in ("State", "var/lib"), ("Runtime", "run"):
            for name in self.settings.get(kind + "Directory", []):
                it[kind.upper() + "_DIRECTORY"] = os.path.join(self.root, parent, name)
                os.makedirs(it[kind.upper() + "_DIRECTORY"], exist_ok=True)
        return it | more

    def start(self, name="ExecStart", number=0, stdout=subprocess.PIPE, start_new_session=False,
              **more):
        """Begins one of its lines."""
        environ = self.environ(**more)
        line = words(self.settings[name][number].lstrip("-+!"), environ)
        return self.begin([self.below(line[0]), *line[1:]], env=environ, stdout=stdout,
                          start_new_session=start_new_session)

    @staticmethod
    def begin(line, **options):
        """Begins a command as a unit's, with both outputs in one."""
        return subprocess.Popen(line, text=True, stdin=subprocess.DEVNULL, umask=0o077, **{
            "stdout": subprocess.PIPE, "stderr": subprocess.STDOUT} | options)

    def run(self, name="ExecStart", number=0, **more):
        """Status and output of a line. A timer's or a oneshot's line ends without a stop."""
        child = self.start(name, number, **more)
        try:
            said = child.communicate(timeout=60)[0]
        except subprocess.TimeoutExpired:
            child.kill()
            child.wait()
            raise
        return child.returncode, said
