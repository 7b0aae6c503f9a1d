"""A server with a control socket, and commands by the socket and over the files."""
import json

from tests.studio.checks import require
from tests.studio.policy import FILM
from tests.studio.program import Server, run


def issue_words(user="ann", repo=FILM, operation="upload"):
    """The words that issue a token."""
    return ["authenticate", "--user", user, repo, operation]


def token_of(line):
    """The token in the line that `authenticate` printed."""
    return json.loads(line)["header"]["Authorization"].split()[1]


class ControlledServer(Server):
    """A server with a control socket. `more` has further words of `serve`."""

    def __init__(self, program, room, policy=None, idle=10, more=(), database="custody.db", port=None, form="rows"):
        super().__init__(program, room, policy, idle, ["--control", f"{room}/control", *more], database, port, form)

    def command(self, name, *more):
        """The words of a command by the socket."""
        return [self.program, name, "--via", self.control(), *more]

    def via(self, name, *more, given=b""):
        """Runs a command by the socket. Returns the status, the output and the error stream."""
        return run(self.command(name, *more), given)

    def token(self, repo=FILM, user="ann"):
        """A new token of the user, by the socket."""
        status, output, errors = self.via(*issue_words(user, repo))
        require(status == 0, f"no token was issued: {errors}")
        return token_of(output)
