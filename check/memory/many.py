"""many: stories of many facts, with one bundle of all of them or with tables of many rows."""

# What stands for longer texts below.
SHORT = {
    "REDEEM ": "POST /token <c1-1:s3cret> - grant_type=authorization_code&code=",
    "ROTATE ": "POST /token <c1-1:s3cret> - grant_type=refresh_token&refresh_token=",
    "REVOKE ": "POST /revoke <c1-1:s3cret> - token=",
    "CONSENT ": "POST /admin/consent - - client_id=c1-1&scope=read&subject=",
    "WITHDRAW ": "POST /admin/withdraw - - consent_id=",
    "ASK ": "GET /authorize?response_type=code&client_id=c1-1&scope=read - ",
}
BEGINNING = """
asker c1-2:s3cret
open 1
"""
CLIENTS = """
client 1 1000 confidential s3cret read%20write https://app.example/cb
client 1 1000 resource s3cret read https://rs.example/cb
client 1 1000 public - read https://pub.example/cb
"""

# Region 1 makes facts of each kind, region 3 takes them in and adds some, region 2 takes in all.
FAMILY = """
req 1 1001 CONSENT s{n} => consent{n}
req 1 1002 ASK s{n} - => code{n}
req 1 1003 REDEEM {code{n}} => a{n} r{n}
"""
ENDS = [
    "req 1 1004 ROTATE {r{n}} => b{n} s{n}",
    "req 1 1004 REVOKE {a{n}}",
    "req 1 1004 REVOKE {r{n}}",
    "req 1 1004 REDEEM {code{n}}",
    "signout 1 1004 s{n}",
    "req 1 1004 WITHDRAW {consent{n}}",
]
REST = """
retire 1 1005 c1-3
req 1 1005 POST /admin/secret - - client_id=c1-1&secret=n3w
follow
deliver {all} 3
follow 3 - - all
req 3 1006 ROTATE {r0} => c0 d0
req 3 1007 CONSENT eve
req 3 1008 ASK eve - => eve
req 3 1009 REDEEM {eve} => e0 f0
signout 3 1010 s1
follow
! deliver {all} 2

other
req 2 1011 ROTATE {f0} => g0 h0
"""

# One region does each of these things sixteen times.
SPARE = """
req 1 1000 CONSENT ann
req 1 1000 ASK ann - => spare
req 1 1000 REDEEM {spare} => x0 y0
"""
EACH = [
    "client 1 1001 public - read https://new.example/cb",
    "req 1 1001 CONSENT s{n} => consent{n}",
    "req 1 1002 ASK s{n} - => code{n}",
    "req 1 1003 REDEEM {code{n}} => a{n} r{n}",
    "req 1 1004 REVOKE {a{n}}",
    "req 1 1005 WITHDRAW {consent{n}}",
    "signout 1 1006 s{n}",
]
OTHERS = """
other
req 1 1003 ROTATE {y0} => x1 y1

other
req 1 1003 ASK ann - => spare2
req 1 1003 REDEEM {spare2} => x2 y2
"""


def written_out(text):
    for short, long in SHORT.items():
        text = text.replace(short, long)
    return text


def many(families):
    """A story with one bundle: about four facts for each family of tokens, and nine more."""
    made = "".join((FAMILY + ENDS[n % len(ENDS)] + "\n").replace("{n}", str(n))
                   for n in range(families))
    start = "watch 2\nopen 2\nopen 3\nfollow 1 - - all\n"
    return written_out(BEGINNING + start + CLIENTS + made + REST)


def sixteen():
    """A story that does things sixteen times, and runs out of memory at the last two of each.

    A node of a table has up to fifteen rows. The others take a dot for ann's family of tokens.
    """
    lines = [("! " if n > 13 else "") + text.replace("{n}", str(n))
             for text in EACH for n in range(16)]
    return written_out(BEGINNING + CLIENTS + SPARE + "\n".join(lines) + OTHERS)
