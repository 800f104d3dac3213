"""model: what a token's introspection has, by facts as plain sets and docs/DEFINITIONS.md.

A fact is the object that lib.reading makes of its bytes. No server is asked. Tables are made anew
for each set of facts, so this is slow and short.
"""
import base64
import collections
import functools
import hashlib
import typing

from lib import Broken
from lib.facts import MARK, read_dot
from lib.reading import PASSING, TOKENS, Bytes, items_of

INACTIVE = {"active": False}
MINTING = {"code_redeemed", "refresh_rotated"}


class Handle(typing.NamedTuple):
    """What a handle's bytes have: the token's dot and kind, and the digest of all."""

    dot: str
    kind: str
    digest: str


@functools.lru_cache(maxsize=None)
def handle_of(text):
    data = base64.urlsafe_b64decode(text)
    return Handle(Bytes(data, 2).dot(), TOKENS[data[1]], hashlib.sha256(data).hexdigest())


@functools.lru_cache(maxsize=None)
def fact_of(item):
    return items_of(item, None)[0]


class Model:
    """A set of facts by their dots, and what follows from them."""

    def __init__(self, items=()):
        self.items, self.facts = {}, {}
        self.add(items)

    def add(self, items):
        """Adds facts, without marks, and makes the tables anew."""
        for it in items:
            fact = fact_of(it)
            if self.items.setdefault(fact["dot"], it) != it:
                raise Broken("two facts at %s" % fact["dot"])
            self.facts[fact["dot"]] = fact
        self.settle()

    def settle(self):
        """Makes the tables of uses, reuses, revocations, secrets, sign-outs and families anew."""
        kinds = collections.defaultdict(list)
        for it in self.facts.values():
            kinds[it["kind"]].append(it)
        self.uses = collections.Counter(it["code"] for it in kinds["code_redeemed"])
        self.uses.update(it["parent"] for it in kinds["refresh_rotated"])
        self.reused = {(it["token"], it["token_kind"]) for it in kinds["reuse_seen"]}
        self.revoked = {(it["token"], it["token_kind"], it["digest"], it["client"])
                        for it in kinds["token_revoked"]}
        self.retired = {it["client"] for it in kinds["client_retired"]}
        self.withdrawn = {it["consent"] for it in kinds["consent_withdrawn"]}
        self.secrets = {it["dot"]: [(0, it["secret_digest"])] for it in kinds["client_added"]
                        if "secret_digest" in it}
        for it in kinds["secret_set"]:
            self.secrets.setdefault(it["client"], []).append((it["turn"], it["secret_digest"]))
        self.signed_out = {}
        for it in kinds["subject_out"]:
            before = self.signed_out.get(it["subject"], it["moment_seconds"])
            self.signed_out[it["subject"]] = max(before, it["moment_seconds"])
        self.codes = {}
        self.dead = {self.code_of(dot)["dot"] for dot in self.facts if self.is_bad(dot)}

    def parent(self, fact):
        """The fact by whose token this one came; None if it isn't known, or doesn't fit."""
        if fact["kind"] == "code_redeemed":
            named = self.facts.get(fact["code"])
            return named if named and named["kind"] == "code_issued" else None
        if fact["kind"] == "refresh_rotated":
            named = self.facts.get(fact["parent"])
            if named and named["kind"] in MINTING:
                fits = named.get("generation", 0) == fact["generation"] - 1
                return named if fits else None
        if fact["kind"] == "access_refreshed":
            named = self.facts.get(fact["parent"])
            return named if named and named["kind"] in MINTING else None
        return None

    def code_of(self, dot):
        """The fact of the code that the token minted at a dot is under; None if there is none."""
        trail, fact = [], self.facts.get(dot)
        while fact and fact["dot"] not in self.codes and fact["kind"] != "code_issued":
            trail.append(fact["dot"])
            fact = self.parent(fact)
        found = self.codes.get(fact["dot"], fact) if fact else None
        self.codes.update(dict.fromkeys(trail, found))
        return found

    def is_bad(self, dot):
        """Whether what happened to the grant of this dot ends its family."""
        fact, code = self.facts[dot], self.code_of(dot)
        if not code or fact["kind"] == "access_refreshed":
            return False
        if fact is code:
            return ((dot, "code") in self.reused or self.uses[dot] > 1
                    or self.signed_out.get(code["subject"], -1) >= code["start_seconds"])
        return ((dot, "refresh_token") in self.reused or self.uses[dot] > 1
                or self.is_revoked(fact, "refresh_token", code))

    def is_revoked(self, fact, kind, code):
        return (fact["dot"], kind, fact[kind]["digest"], code["client"]) in self.revoked

    def minted(self, handle):
        """Start, expiry and scope of a handle's token; None if there is no such token."""
        fact = self.facts.get(handle.dot, {})
        token = fact if handle.kind == "code" else fact.get(handle.kind, {})
        if token.get("digest") != handle.digest:
            return None
        return fact["start_seconds"], token["expiry_seconds"], token["scope"]

    def is_granted(self, code):
        """Whether client and consent of a code are there, and in force."""
        client, consent = self.facts.get(code["client"]), self.facts.get(code["consent"])
        return (client and client["kind"] == "client_added" and client["dot"] not in self.retired
                and consent and consent["kind"] == "consent_given"
                and consent["dot"] not in self.withdrawn and consent["client"] == code["client"]
                and consent["subject"] == code["subject"])

    def is_good_secret(self, client_id, secret):
        """Whether a client is live, and has this secret at its last turn or the one before."""
        client, digest = "%d:%d" % read_dot(client_id), hashlib.sha256(secret.encode()).hexdigest()
        if client not in self.facts or client in self.retired:
            return False
        secrets = self.secrets[client]
        last, _ = max(secrets)
        return any(turn >= last - 1 and it == digest for turn, it in secrets)

    def introspect(self, text, now):
        """What a resource server gets for a handle at a moment."""
        handle = handle_of(text)
        minted, code = self.minted(handle), self.code_of(handle.dot)
        if handle.kind == "code" or not minted or not code or not self.is_granted(code):
            return INACTIVE
        start, expiry, scope = minted
        if now >= min(expiry, code["family_end_seconds"]) or code["dot"] in self.dead:
            return INACTIVE
        if self.is_revoked(self.facts[handle.dot], handle.kind, code):
            return INACTIVE
        if handle.kind == "refresh_token" and self.uses[handle.dot]:
            return INACTIVE
        said = {"active": True, "client_id": "c" + code["client"].replace(":", "-"),
                "exp": expiry, "iat": start, "scope": scope, "sub": code["subject"]}
        return said | ({"token_type": "Bearer"} if handle.kind == "access_token" else {})

    def is_active(self, text, now):
        return self.introspect(text, now)["active"]

    def end_of(self, text):
        """The moment from which a handle's token has expired."""
        handle = handle_of(text)
        return min(self.minted(handle)[1], self.code_of(handle.dot)["family_end_seconds"])

    def family_end(self, dot):
        """The end of the family for which the fact at a dot is kept; None if it must stay."""
        fact = self.facts[dot]
        if fact["kind"] not in PASSING:
            return None
        code = self.code_of(fact.get("token", dot))
        return code["family_end_seconds"] if code else None


def facts_alone(items):
    return [it for it in items if len(it) > MARK]
