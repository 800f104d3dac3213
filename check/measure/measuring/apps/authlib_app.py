"""An OAuth 2.0 server with Authlib, Flask and SQLAlchemy on SQLite, as Authlib's documents show it.

It has the code grant with PKCE, refresh with rotation, introspection and revocation. Authlib has
nothing for a refresh token that is used twice, and nor has this. gunicorn runs authlib_app:app;
this file as a command makes the database. The signed-in user comes as X-Subject. Environment: DB is
the file of the database; CLIENT, SECRET and REDIRECT are those of the client.
"""
import os
import time

from authlib.integrations.flask_oauth2 import AuthorizationServer
from authlib.integrations.sqla_oauth2 import (
    OAuth2AuthorizationCodeMixin, OAuth2ClientMixin, OAuth2TokenMixin, create_query_client_func,
    create_save_token_func)
from authlib.oauth2.rfc6749 import grants
from authlib.oauth2.rfc7009 import RevocationEndpoint
from authlib.oauth2.rfc7636 import CodeChallenge
from authlib.oauth2.rfc7662 import IntrospectionEndpoint
from flask import Flask, request
from flask_sqlalchemy import SQLAlchemy

app = Flask(__name__)
app.config.update(SQLALCHEMY_DATABASE_URI="sqlite:///" + os.environ["DB"],
                  SQLALCHEMY_TRACK_MODIFICATIONS=False, OAUTH2_REFRESH_TOKEN_GENERATOR=True)
db = SQLAlchemy(app)
LIFE = 86_400  # of a refresh token


class User:
    def __init__(self, name):
        self.id = name

    def get_user_id(self):
        return self.id


class Client(db.Model, OAuth2ClientMixin):
    id = db.Column(db.Integer, primary_key=True)


class Code(db.Model, OAuth2AuthorizationCodeMixin):
    id = db.Column(db.Integer, primary_key=True)
    user_id = db.Column(db.String(128), index=True)


class Token(db.Model, OAuth2TokenMixin):
    id = db.Column(db.Integer, primary_key=True)
    user_id = db.Column(db.String(128), index=True)

    def is_refresh_token_active(self):
        return not self.refresh_token_revoked_at and self.issued_at + LIFE > time.time()


def keep(row):
    db.session.add(row)
    db.session.commit()


class CodeGrant(grants.AuthorizationCodeGrant):
    def save_authorization_code(self, code, request):
        keep(Code(code=code, client_id=request.client.client_id, user_id=request.user.id,
                  redirect_uri=request.redirect_uri, scope=request.scope,
                  code_challenge=request.data.get("code_challenge"),
                  code_challenge_method=request.data.get("code_challenge_method")))

    def query_authorization_code(self, code, client):
        found = Code.query.filter_by(code=code, client_id=client.client_id).first()
        return found if found and not found.is_expired() else None

    def delete_authorization_code(self, code):
        db.session.delete(code)
        db.session.commit()

    def authenticate_user(self, code):
        return User(code.user_id)


class RefreshGrant(grants.RefreshTokenGrant):
    INCLUDE_NEW_REFRESH_TOKEN = True

    def authenticate_refresh_token(self, refresh_token):
        found = Token.query.filter_by(refresh_token=refresh_token).first()
        return found if found and found.is_refresh_token_active() else None

    def authenticate_user(self, credential):
        return User(credential.user_id)

    def revoke_old_credential(self, credential):
        credential.refresh_token_revoked_at = int(time.time())
        keep(credential)


def find(token, hint):
    """The row of a token. The hint is where to look first (RFC 7009, section 2.1)."""
    kinds = "access_token", "refresh_token"
    for kind in reversed(kinds) if hint == "refresh_token" else kinds:
        found = Token.query.filter_by(**{kind: token}).first()
        if found:
            return found
    return None


class Introspection(IntrospectionEndpoint):
    def query_token(self, token, hint):
        return find(token, hint)

    def check_permission(self, token, client, request):
        return True

    def introspect_token(self, token):
        """Returns the claims of an access or a refresh token, by RFC 7662."""
        if request.form.get("token") == token.refresh_token:
            is_active, life = token.is_refresh_token_active(), LIFE
        else:
            is_active = not token.access_token_revoked_at and not token.is_expired()
            life = token.expires_in
        if not is_active:
            return {"active": False}
        return {"active": True, "client_id": token.client_id, "token_type": token.token_type,
                "sub": token.user_id, "scope": token.get_scope(), "exp": token.issued_at + life,
                "iat": token.issued_at}


class Revocation(RevocationEndpoint):
    def query_token(self, token, hint):
        return find(token, hint)

    def revoke_token(self, token, request):
        token.access_token_revoked_at = token.refresh_token_revoked_at = int(time.time())
        keep(token)


server = AuthorizationServer(app, query_client=create_query_client_func(db.session, Client),
                             save_token=create_save_token_func(db.session, Token))
server.register_grant(CodeGrant, [CodeChallenge(required=False)])
server.register_grant(RefreshGrant)
server.register_endpoint(Introspection)
server.register_endpoint(Revocation)


@app.route("/authorize")
def authorize():
    return server.create_authorization_response(grant_user=User(request.headers["X-Subject"]))


@app.route("/token", methods=["POST"])
def issue():
    return server.create_token_response()


@app.route("/introspect", methods=["POST"])
def introspect():
    return server.create_endpoint_response("introspection")


@app.route("/revoke", methods=["POST"])
def revoke():
    return server.create_endpoint_response("revocation")


def make_database():
    """Makes the tables, and the client that the environment names."""
    db.create_all()
    client = Client(client_id=os.environ["CLIENT"], client_secret=os.environ["SECRET"],
                    client_id_issued_at=int(time.time()))
    client.set_client_metadata({
        "client_name": "measured", "grant_types": ["authorization_code", "refresh_token"],
        "redirect_uris": [os.environ["REDIRECT"]], "response_types": ["code"],
        "scope": "read write", "token_endpoint_auth_method": "client_secret_basic"})
    keep(client)


if __name__ == "__main__":
    with app.app_context():
        make_database()
