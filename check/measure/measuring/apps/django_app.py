"""An OAuth 2.0 server with django-oauth-toolkit on SQLite, as its documents show it, in one file.

gunicorn runs django_app:application; this file as a command makes the database. The signed-in user
comes as X-Subject. Environment: DB is the file of the database; CLIENT, SECRET and REDIRECT are
those of the client.
"""
import os
import sys

import django
from django.conf import settings

settings.configure(
    DEBUG=False, SECRET_KEY="measured", ALLOWED_HOSTS=["*"], ROOT_URLCONF=__name__, USE_TZ=True,
    DEFAULT_AUTO_FIELD="django.db.models.AutoField", LOGGING_CONFIG=None,
    DATABASES={"default": {"ENGINE": "django.db.backends.sqlite3", "NAME": os.environ["DB"],
                           "CONN_MAX_AGE": None}},
    INSTALLED_APPS=["django.contrib.auth", "django.contrib.contenttypes", "oauth2_provider"],
    MIDDLEWARE=["django.middleware.common.CommonMiddleware", "django_app.sign_in"],
    OAUTH2_PROVIDER={"SCOPES": {"read": "read", "write": "write", "introspection": "introspect"},
                     "PKCE_REQUIRED": False, "ROTATE_REFRESH_TOKEN": True,
                     "REQUEST_APPROVAL_PROMPT": "auto"})
sys.modules.setdefault("django_app", sys.modules[__name__])
django.setup()

# pylint: disable=wrong-import-position
from django.contrib.auth.models import User  # noqa: E402
from django.core.management import call_command  # noqa: E402
from django.core.wsgi import get_wsgi_application  # noqa: E402
from django.urls import path  # noqa: E402
from oauth2_provider import views  # noqa: E402
from oauth2_provider.models import Application  # noqa: E402


def sign_in(get_response):
    """Signs in the user that a front end names."""
    def respond(request):
        name = request.headers.get("X-Subject")
        if name:
            request.user = User.objects.get(username=name)
        return get_response(request)
    return respond


urlpatterns = [path("authorize", views.AuthorizationView.as_view()),
               path("token", views.TokenView.as_view()),
               path("introspect", views.IntrospectTokenView.as_view()),
               path("revoke", views.RevokeTokenView.as_view())]
application = get_wsgi_application()


def make_database():
    """Makes the tables, the user, and the client that the environment names."""
    call_command("migrate", verbosity=0)
    user = User.objects.create(username="ann")
    Application.objects.create(
        client_id=os.environ["CLIENT"], client_secret=os.environ["SECRET"], user=user,
        client_type="confidential", authorization_grant_type="authorization-code",
        skip_authorization=True, redirect_uris=os.environ["REDIRECT"], name="measured")


if __name__ == "__main__":
    make_database()
