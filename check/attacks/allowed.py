"""allowed: who reaches a port of 127.0.0.1, before and after rules, in a network namespace.

    unshare -n python3 allowed.py RULES USER..

RULES is a file for nft. Prints a word for each user, by number: `before` and `after` the rules are
loaded, `connected` or `refused`, as in 65534:connected:refused.
"""
import os
import socket
import subprocess
import sys

PATH = os.environ.get("PATH", "") + ":/usr/sbin:/sbin"
AS_USER = """
import encodings.idna, os, socket, sys  # what a user may not read is read before
os.setgroups([]); os.setgid(int(sys.argv[1])); os.setuid(int(sys.argv[1]))
try:
    socket.create_connection(("127.0.0.1", int(sys.argv[2])), 5).close()
    print("connected", end="")
except ConnectionError:
    print("refused", end="")
"""


def run(*words):
    subprocess.run(words, check=True, env=os.environ | {"PATH": PATH})


def seen_by(user, port):
    done = subprocess.run([sys.executable, "-c", AS_USER, user, str(port)], capture_output=True,
                          text=True, check=True)
    return done.stdout


def main():
    rules, users = sys.argv[1], sys.argv[2:]
    run("ip", "link", "set", "lo", "up")
    with socket.create_server(("127.0.0.1", 0)) as region:
        port = region.getsockname()[1]
        before = [seen_by(it, port) for it in users]
        run("nft", "-D", "port=%d" % port, "-D", "allowed={ %s }" % users[0], "-f", rules)
        after = [seen_by(it, port) for it in users]
    print(*(":".join(it) for it in zip(users, before, after)))


if __name__ == "__main__":
    main()
