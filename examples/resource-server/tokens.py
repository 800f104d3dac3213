"""Whether a request may pass: a resource server's question to tokend (RFC 7662, RFC 6750).

`Checker.check` returns the claims of a good access token, which are what introspection reports of
it, or raises `Refused` with the status and the `WWW-Authenticate` of the reply. It fails closed: if
tokend gives no reply, or another status than 200, nobody passes. Nothing is cached, so a revocation
counts at once.
"""
import base64
import contextlib
import http.client
import json
import sys
import time
import urllib.parse
from pathlib import Path

sys.path.insert(1, str(Path(__file__).resolve().parent.parent.parent / "starter"))
from bases import connection_to, read_base

FORM = "application/x-www-form-urlencoded"


class Refused(Exception):
    def __init__(self, status, challenge=None):
        super().__init__(status)
        self.status, self.challenge = status, challenge


class Checker:
    """Introspects as the resource client of this id and secret.

    `url` is a base URL: that of the front end, or `unix:` and the path of a socket.
    """

    def __init__(self, url, client_id, secret, timeout=5):
        pair = ":".join(urllib.parse.quote_plus(part) for part in (client_id, secret))
        self.base, self.timeout = read_base(url), timeout
        self.fields = {"Authorization": "Basic " + base64.b64encode(pair.encode()).decode(),
                       "Content-Type": FORM}

    def introspect(self, token):
        """Returns the claims of a reply of status 200. Raises Refused, status 503, without one."""
        # no proxy is used: the token must not leave the inner network
        body = urllib.parse.urlencode({"token": token}).encode()
        try:
            with contextlib.closing(connection_to(self.base, self.timeout)) as link:
                link.request("POST", self.base.target("/introspect"), body, self.fields)
                reply = link.getresponse()
                if reply.status == 200:
                    return json.load(reply)
        except (OSError, ValueError, http.client.HTTPException):
            pass
        raise Refused(503)

    def claims(self, authorization):
        """The claims of the access token in a request's `Authorization`, which may be None."""
        scheme, _, token = (authorization or "").partition(" ")
        if scheme.lower() != "bearer" or not token.strip():
            raise Refused(401, "Bearer")
        claims = self.introspect(token.strip())
        # a good refresh token is active too, but has no token_type
        if not claims.get("active") or claims.get("token_type") != "Bearer":
            raise Refused(401, 'Bearer error="invalid_token"')
        if claims["exp"] <= time.time():
            raise Refused(401, 'Bearer error="invalid_token"')
        return claims

    def check(self, authorization, scope):
        """The claims, if the access token has this scope-token too."""
        claims = self.claims(authorization)
        if scope not in claims["scope"].split(" "):
            raise Refused(403, 'Bearer error="insufficient_scope", scope="%s"' % scope)
        return claims
