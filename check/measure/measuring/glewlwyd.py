"""glewlwyd: how that server is set up, by its own administration, and how its tables are filled.

Its documents say how to start it with a file of SQLite, and how each setting is named.
"""
import http.client
import json

from lib import Broken

TABLES = "/usr/share/doc/glewlwyd/database/init.sqlite3.sql.gz"
CONFIGURATION = """
port=%(port)d
bind_address="127.0.0.1"
external_url="http://127.0.0.1:%(port)d/"
login_url="login.html"
api_prefix="api"
log_mode="file"
log_level="ERROR"
log_file="%(folder)s/log"
cookie_secure=0
session_expiration=2419200
session_key="GLEWLWYD2_SESSION_ID"
admin_scope="g_admin"
profile_scope="g_profile"
admin_session_authentication="cookie"
profile_session_authentication="cookie"
login_api_enabled=true
user_module_path="/usr/lib/glewlwyd/user"
client_module_path="/usr/lib/glewlwyd/client"
user_auth_scheme_module_path="/usr/lib/glewlwyd/scheme"
plugin_module_path="/usr/lib/glewlwyd/plugin"
use_secure_connection=false
secure_connection_key_file="none"
secure_connection_pem_file="none"
secure_connection_ca_file="none"
hash_algorithm="SHA512"
database={ type="sqlite3" path="%(folder)s/database" };
"""
COPIES = """
    INSERT INTO gpo_refresh_token(gpor_plugin_name, gpor_authorization_type, gpoc_id, gpor_username,
        gpor_client_id, gpor_issued_at, gpor_expires_at, gpor_last_seen, gpor_duration,
        gpor_token_hash, gpor_jti, gpor_enabled)
    WITH RECURSIVE n(i) AS (SELECT 1 UNION ALL SELECT i + 1 FROM n WHERE i < :count)
    SELECT gpor_plugin_name, gpor_authorization_type, gpoc_id, gpor_username, gpor_client_id,
        gpor_issued_at, gpor_expires_at, gpor_last_seen, gpor_duration, hex(randomblob(32)),
        hex(randomblob(16)), 1 FROM n, (SELECT * FROM gpo_refresh_token LIMIT 1);
    INSERT INTO gpo_access_token(gpoa_plugin_name, gpoa_authorization_type, gpor_id, gpoa_username,
        gpoa_client_id, gpoa_issued_at, gpoa_token_hash, gpoa_jti, gpoa_enabled)
    SELECT a.gpoa_plugin_name, a.gpoa_authorization_type, r.gpor_id, a.gpoa_username,
        a.gpoa_client_id, a.gpoa_issued_at, hex(randomblob(32)), hex(randomblob(16)), 1
        FROM gpo_refresh_token r, (SELECT * FROM gpo_access_token LIMIT 1) a
        WHERE r.gpor_id > (SELECT max(gpor_id) - :count FROM gpo_refresh_token);
    INSERT INTO gpo_access_token_scope(gpoa_id, gpoas_scope)
    SELECT gpoa_id, s.x FROM gpo_access_token, (SELECT 'read' x UNION SELECT 'write') s
        WHERE gpoa_id > (SELECT max(gpoa_id) - :count FROM gpo_access_token);
    INSERT INTO gpo_refresh_token_scope(gpor_id, gpors_scope)
    SELECT gpor_id, s.x FROM gpo_refresh_token, (SELECT 'read' x UNION SELECT 'write') s
        WHERE gpor_id > (SELECT max(gpor_id) - :count FROM gpo_refresh_token);
"""
PLUGIN = {
    "access-token-duration": 3600, "refresh-token-duration": 1209600, "code-duration": 600,
    "refresh-token-rolling": False, "refresh-token-one-use": "always",
    "auth-type-code-enabled": True, "auth-type-code-revoke-replayed": True,
    "auth-type-implicit-enabled": False, "auth-type-password-enabled": False,
    "auth-type-client-enabled": False, "auth-type-refresh-enabled": True,
    "auth-type-device-enabled": False, "auth-type-token-enabled": False,
    "auth-type-id-token-enabled": True, "auth-type-none-enabled": False, "allow-non-oidc": True,
    "scope": [], "additional-parameters": [], "pkce-allowed": True,
    "pkce-method-plain-allowed": True, "introspection-revocation-allowed": True,
    "introspection-revocation-allow-target-client": True,
    "introspection-revocation-auth-scope": [], "jwks-show": False, "subject-type": "public",
    "session-management-allowed": False, "request-parameter-allow": False, "jwt-type": "sha",
    "jwt-key-size": "256", "key": "0123456789abcdef0123456789abcdef", "cert": ""}


class Administration:
    """The requests of an administrator who is signed in."""

    def __init__(self, port):
        self.port, self.cookie = port, ""
        said = self.ask("POST", "/auth/", {"username": "admin", "password": "password"})
        self.cookie = said.headers["Set-Cookie"].split(";")[0]

    def ask(self, method, path, content=None):
        """The reply, whose status must be 200, with its text as `text`."""
        peer = http.client.HTTPConnection("127.0.0.1", self.port, timeout=60)
        headers = {"Content-Type": "application/json", "Connection": "close"}
        if self.cookie:
            headers["Cookie"] = self.cookie
        try:
            peer.request(method, "/api" + path, json.dumps(content) if content else None, headers)
            said = peer.getresponse()
            said.text = said.read()
        finally:
            peer.close()
        if said.status != 200:
            raise Broken("glewlwyd: %s %s is answered %d %r"
                         % (method, path, said.status, said.text[:300]))
        return said


def enrol(port, client, secret, redirect):
    """Adds scopes, a client, the plugin and a consent of the user; returns the user's cookie."""
    it = Administration(port)
    for scope in "read", "write":
        it.ask("POST", "/scope/", {"name": scope, "display_name": scope, "description": scope,
                                   "password_required": False, "scheme": {}})
    user = json.loads(it.ask("GET", "/user/admin").text)
    user["scope"] = list(set(user["scope"] + ["read", "write", "openid"]))
    it.ask("PUT", "/user/admin", user)
    it.ask("POST", "/client/", {
        "client_id": client, "name": client, "confidential": True, "enabled": True,
        "client_secret": secret, "scope": ["read"], "redirect_uri": [redirect],
        "authorization_type": ["code", "refresh_token"],
        "token_endpoint_auth_method": ["client_secret_basic", "client_secret_post"]})
    it.ask("POST", "/mod/plugin/", {
        "module": "oidc", "name": "oidc", "display_name": "oidc", "order_rank": 1,
        "parameters": PLUGIN | {"iss": "http://127.0.0.1:%d" % port}})
    it.ask("PUT", "/auth/grant/" + client, {"scope": "read write"})
    return it.cookie
