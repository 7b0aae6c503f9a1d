"""The text of a policy file."""

FILM, GAME, ART = "studio/film", "studio/game", "studio/art"
BASE = "https://lfs.example"
MAIN = "refs/heads/main"
WORK = ("pull", "push", "list", "lock")
DAY = 86_400


def texts(values):
    """A list of texts."""
    return "[" + ", ".join(f'"{it}"' for it in values) + "]"


def row(effect, users, rights, repos=(FILM,), refs=("*",), paths=("*",)):
    """A row; without repositories, refs or paths it is about all of `studio/film`."""
    lists = {"users": users, "repos": repos, "refs": refs, "paths": paths, "rights": rights}
    lines = "".join(f"{key} = {texts(values)}\n" for key, values in lists.items())
    return f'\n[[row]]\neffect = "{effect}"\n{lines}'


def repo(name, quota=100_000_000_000, ref=MAIN):
    """A repository with its default branch."""
    return f'\n[[repo]]\nname = "{name}"\ndefault_ref = "{ref}"\nquota = {quota}\n'


def policy(rows, base=BASE, seconds=DAY, quota=100_000_000_000, repos=(FILM,)):
    """A policy whose repositories have this quota each; the rows may have others among them."""
    tables = "".join(repo(it, quota) for it in repos)
    return f'base = "{base}"\ntoken_seconds = {seconds}\n{tables}{"".join(rows)}'


def open_policy(users=("ann", "bob"), repos=(FILM,), quota=4_000_000_000):
    """A policy in which these users may do everything but force in each of these repositories."""
    return policy([row("allow", users, WORK, repos=("*",))], repos=repos, quota=quota)
