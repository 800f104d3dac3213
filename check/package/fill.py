"""fill: pushes facts to the region on port 7001 until it has no memory for more; prints how many
pages it took."""
import http.client
import struct

DOT = struct.Struct(">HQ")
FACTS = 128  # of a page
PAGES = 20_000  # more than any limit of a test lets in


def fact(serial):
    """The retirement of a client of region 50, with its length."""
    body = DOT.pack(50, serial) + b"\2" + DOT.pack(50, 1)
    return struct.pack(">H", len(body)) + body


def push(page):
    facts = b"".join(fact(page * FACTS + it) for it in range(1, FACTS + 1))
    link = http.client.HTTPConnection("127.0.0.1", 7001, timeout=10)
    link.request("POST", "/sync/push", b"OTB1" + struct.pack(">H", FACTS) + facts)
    link.getresponse().read()
    link.close()


def main():
    for page in range(PAGES):
        try:
            push(page)
        except http.client.RemoteDisconnected:
            print(page)
            return


if __name__ == "__main__":
    main()
