"""tls: certificates of 127.0.0.1 that sign themselves."""
import shutil
import subprocess

OPENSSL = shutil.which("openssl")


def make_certificate(folder):
    """Makes key.pem and cert.pem in a folder."""
    subprocess.run(
        [OPENSSL, "req", "-x509", "-newkey", "ec", "-pkeyopt", "ec_paramgen_curve:P-256", "-nodes",
         "-days", "2", "-subj", "/CN=127.0.0.1", "-addext", "subjectAltName=IP:127.0.0.1",
         "-keyout", folder + "/key.pem", "-out", folder + "/cert.pem"],
        check=True, capture_output=True)
