"""Names judged by Git itself, many at a time: as `git check-ref-format NAME` judges each, which takes one name a process."""
import os, subprocess, tempfile

ENV = dict(os.environ, GIT_CONFIG_NOSYSTEM="1", GIT_CONFIG_GLOBAL=os.devnull)


def alone(name):
    """By check-ref-format. It takes a `-` at the front for an option, and a part before such a name changes none of the rules but the slash's."""
    if name.startswith(b"-"):
        return b"/" in name and alone(b"refs/" + name)
    code = subprocess.run([b"git", b"check-ref-format", name], env=ENV, stderr=subprocess.DEVNULL).returncode
    if code not in (0, 1):
        raise SystemExit(f"git check-ref-format gave {code} for {name!r}")
    return code == 0


def together(names):
    """By Git's reader of packed-refs, which has the same test: `for-each-ref` lists `refs/NAME` if it is good. NAME needs a slash of its own."""
    with tempfile.TemporaryDirectory() as repository:
        subprocess.run(["git", "init", "-q", "--bare", repository], check=True, env=ENV)
        with open(os.path.join(repository, "packed-refs"), "wb") as f:
            f.write(b"# pack-refs with: peeled fully-peeled sorted \n")
            f.writelines(b"1" * 40 + b" refs/" + name + b"\n" for name in sorted(names))
        listed = subprocess.run(["git", "--git-dir", repository, "for-each-ref", "--format=%(refname)"], env=ENV, check=True, capture_output=True).stdout
    good = set(listed.split(b"\n"))
    return {name: b"refs/" + name in good and b"/" in name for name in names}


def judged(names):
    """Which of the names are good. A name with a NUL can't be given to a program, and is left out; a name that the reader stops at is asked alone."""
    names = {name for name in names if b"\0" not in name}
    stops = {name for name in names if b"\n" in name or any(part in (b"", b".", b"..") for part in name.split(b"/"))}
    return together(names - stops) | {name: alone(name) for name in stops}
