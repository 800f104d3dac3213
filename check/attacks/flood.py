"""flood: half requests of one address at the front end's nginx, in a network namespace.

    unshare -n python3 flood.py FOLDER HOST [RULES]

FOLDER has nginx.conf, filled in, and its certificate; the port is 443. RULES is a file for nft.
254 connections come from one address of the loopback, and each sends half a head. Prints `replied`
if another address gets a reply within 3 seconds, otherwise `silent`; and how many it holds.
"""
import contextlib
import http.client
import os
import socket
import ssl
import subprocess
import sys
import time

PATH = os.environ.get("PATH", "") + ":/usr/sbin:/sbin"
ATTACKER = {"127.0.0.1": "127.0.0.2", "::1": "fd00::2"}
FLOOD, PATIENCE = 254, 3


def run(*words):
    subprocess.run(words, check=True, env=os.environ | {"PATH": PATH})


def client():
    it = ssl.create_default_context()
    it.check_hostname, it.verify_mode = False, ssl.CERT_NONE
    return it


def reply(host):
    """The status of a reply, or nothing within some seconds."""
    link = http.client.HTTPSConnection(host, 443, timeout=PATIENCE, context=client())
    with contextlib.closing(link), contextlib.suppress(OSError, http.client.HTTPException):
        link.request("GET", "/")
        return link.getresponse().status
    return None


def await_reply(host):
    end = time.monotonic() + 10
    while reply(host) is None:
        if time.monotonic() > end:
            sys.exit("nginx doesn't reply")
        time.sleep(0.1)


def half_request(host, tls):
    """A connection that sent half a head; nothing if it is refused or nobody takes it."""
    with contextlib.suppress(OSError):
        it = tls.wrap_socket(socket.create_connection(
            (host, 443), 1, source_address=(ATTACKER[host], 0)))
        it.send(b"GET / HTTP/1.1\r\nHo")
        return it
    return None


def main():
    folder, host, *rules = sys.argv[1:]
    run("ip", "link", "set", "lo", "up")
    run("ip", "addr", "add", "fd00::2/128", "dev", "lo")
    if rules:
        run("nft", "-D", "port=443", "-f", rules[0])
    nginx = subprocess.Popen(["nginx", "-e", folder + "/nginx.log", "-c", folder + "/nginx.conf"],
                             env=os.environ | {"PATH": PATH})
    try:
        await_reply(host)
        tls = client()
        held = [it for _ in range(FLOOD) if (it := half_request(host, tls))]
        print("replied" if reply(host) == 404 else "silent", len(held))
    finally:
        nginx.terminate()
        nginx.wait()


if __name__ == "__main__":
    main()
