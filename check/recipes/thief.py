"""thief: another one has the refresh token too, and sends it within the time of `--repeat`."""
import time

from repeating import RepeatCase


class Thief(RepeatCase):
    def test_both_get_the_same_tokens_and_the_next_use_of_both_ends_them(self):
        self.serve("--repeat", "1")
        first = self.new_login()
        ours, theirs = (self.region.form("/token", self.form_of(first)) for _ in range(2))
        for name in "access_token", "refresh_token":
            self.assertEqual(ours[name], theirs[name])
        last = self.region.form("/token", self.form_of(theirs))
        time.sleep(2.5)
        self.assertTrue(self.is_active(last["access_token"]))
        said = self.region.form("/token", self.form_of(ours), status=400)
        self.assertEqual(said, {"error": "invalid_grant"})
        for tokens in first, ours, last:
            self.assertFalse(self.is_active(tokens["access_token"]))
