"""Copies of the repository's crates in other folders, for tools that must not work in the checkout itself."""
import os
import shutil

TOP = os.path.dirname(os.path.dirname(os.path.realpath(__file__)))
# What a crate's proof is made of.
PARTS = ("src", "specs", "proofs")


def crates() -> dict[str, list[str]]:
    """What each crate of crates.txt stands on, of this repository alone, in the order of that file."""
    stands: dict[str, list[str]] = {}
    with open(f"{TOP}/crates.txt", encoding="utf-8") as file:
        for line in file:
            name, colon, rest = line.split("#")[0].partition(":")
            if colon:
                stands[name.split()[0]] = rest.split()
    return {name: [it for it in names if it in stands] for name, names in stands.items()}


def below(stands: dict[str, list[str]], name: str) -> list[str]:
    """All crates below one, sorted."""
    found: set[str] = set()
    left = list(stands[name])
    while left:
        it = left.pop()
        if it not in found:
            found.add(it)
            left += stands[it]
    return sorted(found)


def link_or_copy(one: str, other: str) -> None:
    """Gives a kept file a second name: rt makes such a file anew and never writes into it."""
    try:
        os.link(one, other)
    except OSError:
        shutil.copyfile(one, other)


def link_out(one: str, other: str) -> None:
    """Gives a crate's folder what checks kept in another folder of that crate, in the place of what it has."""
    shutil.rmtree(f"{other}/out", ignore_errors=True)
    if os.path.isdir(f"{one}/out"):
        shutil.copytree(f"{one}/out", f"{other}/out", symlinks=True, copy_function=link_or_copy)


def lay_crate(name: str, room: str) -> None:
    """Copies what the proof of a crate is made of."""
    for part in PARTS:
        shutil.rmtree(f"{room}/crates/{name}/{part}", ignore_errors=True)
        if os.path.isdir(f"{TOP}/crates/{name}/{part}"):
            shutil.copytree(f"{TOP}/crates/{name}/{part}", f"{room}/crates/{name}/{part}")


def lay(room: str, others: tuple[str, ...] = ()) -> None:
    """Lays all crates into a folder, without what checks kept of them. What it has besides goes, but for `others`."""
    names = crates()
    os.makedirs(f"{room}/crates", exist_ok=True)
    for stale in set(os.listdir(f"{room}/crates")) - {*names, *others}:
        shutil.rmtree(f"{room}/crates/{stale}")
    for file in ("crates.txt", "HANDLES"):
        shutil.copy(f"{TOP}/{file}", f"{room}/{file}")
    for name in names:
        lay_crate(name, room)


def cache(name: str) -> str:
    """A folder of this user in which a tool may leave its work, outside of the repository."""
    return f"{os.environ.get('XDG_CACHE_HOME') or os.path.expanduser('~/.cache')}/mukdeth/{name}"
