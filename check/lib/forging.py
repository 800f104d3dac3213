"""forging: requests of clients that name an operator, whom a front end must not pass on."""

TWICE = {"X-Operator": "root", "x-operator": "root"}  # a site refuses a field that comes twice
REFUSED = 400, b'{"error":"bad_request"}'


def requests_of(client, login, mine, access, refresh):
    """A request of each path for clients: method, path, form, fields, and its status.

    The user sends the fields of the login, and the client its own.
    """
    where = "/authorize?response_type=code&client_id=" + client
    again = {"grant_type": "refresh_token", "refresh_token": refresh}
    return (("GET", where, None, login, 302),
            ("POST", "/introspect", {"token": access}, mine, 200),
            ("POST", "/token", again, mine, 200),
            ("POST", "/revoke", {"token": access}, mine, 200))
