"""Names of references with Git's own answers, `git check-ref-format NAME`, for vectors/answers.py. The same Git gives the same answers each time."""
import itertools
import subprocess
from git_judge import alone

# The cases of Git's t/t1402-check-ref-format.sh that ask with no option.
T1402 = [
    b"", b"/", b"foo/bar/baz", b"refs///heads/foo", b"heads/foo/", b"/heads/foo", b"///heads/foo", b"./foo", b"./foo/bar",
    b"foo/./bar", b"foo/bar/.", b".refs/foo", b"refs/heads/foo.", b"heads/foo..bar", b"heads/foo?bar", b"foo./bar",
    b"heads/foo.lock", b"heads///foo.lock", b"foo.lock/bar", b"foo.lock///bar", b"heads/foo@bar", b"heads/v@{ation",
    b"heads/foo\\bar", b"heads/foo\t", b"heads/foo\x7f", b"heads/fu\xc3\x9f", b"foo", b"foo/bar", b"foo/*", b"*/foo",
    b"foo/*/bar", b"*", b"/foo",
]

# What the rules on dots, `@{` and `.lock` look for, and what only nearly is so.
WORDS = [
    b".", b"..", b"@", b"@{", b"{", b"@x{", b".lock", b".loc", b".lockx", b"lock", b".Lock", b".lock.", b"..lock", b".lock.lock",
]

# Where a word can stand: alone, and in the first, a middle and the last component, with and without bytes around it.
PLACES = [
    b"%s", b"a%s", b"%s/a", b"a%s/a", b"%sa/a", b"a%sa/a", b"a/%s/a", b"a/a%s/a", b"a/%sa/a", b"a/a%sa/a", b"a/%s", b"a/a%s", b"a/%sa",
    b"a/a%sa",
]

# Names around `.lock` at the end of a component: in the first, an inner and the last one, the word alone, longer by a letter, cut by a slash. These are also
# asked in each place where a name can stand.
LOCKS_IN_EACH_PLACE = [
    b"a.lock/b", b"a/b.lock/c", b"a.lock.b/c", b"a.lockb/c", b"a.loc/k", b"a/.lock", b"a/x.lock", b".lock/b", b"a/.lock/b", b".lock/.lock", b"a/b/.lock",
    b"a/lock", b"a/.loc/k", b"a./lock", b"a.l/ock", b"a.lo/ck", b"a/b./lock", b"a/b.l/ock", b"a/b.lo/ck", b"a/b.loc/k",
]

# More of them, and with other components that keep or break another rule.
LOCKS = [
    b"a/b/.lock/c", b"a/b.lock/c.lock",
    b"a.lock/b.lock/c.lock", b"a/lock/b", b"alock/b", b"a/block/c", b"a/b.LOCK/c", b"a/b.lock-/c", b"a/b.lock.lock/c", b"a/b.lockk/c", b"a/b.llock/c",
    b"a/b.loock/c", b"a/bxlock/c", b"a/b.lock", b"refs/sent/ward4/o118.lock/e3", b"refs/sent/ward4/e3.lock", b"refs/sent/e3.lock/ward4/o118",
    b"x.lock/y", b"x.lock/y.lock", b"x.lock/y.lock/z", b"w/x.lock/y.lock/z", b"x.lock//y", b"x.lock/.y", b"x.lock/y.", b"x.lock/y..z",
    b"x.lock/y@{z", b"x.lock/y z", b"x.lock/y/", b"/x.lock/y", b".x.lock/y", b"x y.lock/z", b"x.lock/lock", b"x.lock/.loc",
    b"x.lock/y.loc", b"x.loc/k", b"x.l/ock", b"@.lock/y", b"x.lock@/y", b"x.lock\x01/y", b"x.lock\x80/y", b"x.lock/\xff", b"\xff.lock/y",
    b"refs/heads/sub.lock/webmatrix", b"refs/heads/e3/o118.lock", b"refs/heads.lock/e3", b"refs.lock/heads/e3",
]

# One component, and names as repositories have them or are asked to.
COMMON = [
    b"HEAD", b"FETCH_HEAD", b"ONE_LEVEL", b"lower_case", b"master", b"refs", b"refs/", b"HEAD/", b"refs/stash", b"refs/heads/master",
    b"refs/tags/v1.0", b"refs/tags/0.17.0", b"refs/tags/0.17.0^{}", b"refs/remotes/origin/HEAD", b"refs/pull/1/head",
    b"refs/remotes/origin/bim_with_3d@11296", b"refs/master{yesterday", b"refs/master}yesterday", b"refs/master{yesterday}",
    b"refs/master@{yesterday}", b"refs/heads/-x", b"refs/-/x", b"refs/heads/#1", b"refs/heads/a..b", b"refs/heads/a^",
    b"refs/heads/a~1", b"refs/heads/a:b", b"refs/heads/*", b"refs/heads/a b", b"refs/heads/a\\b", b"refs/heads/$(x);'y'|\"z\"",
    b"refs/heads/%00", b"refs/sent/ward4/o118/e3", b"main-worktree/refs/a", b"a/b/c/d/e/f/g/h/i/j/k/l/m/n/o/p",
]

# Bytes that a reader of text might take off or split at, at the places where it would.
BLANKS = [b" ", b"\t", b"\n", b"\r", b"\r\n"]
BLANK_PLACES = [b"%s", b"%sa/b", b"a%s/b", b"a/%s/b", b"a/%sb", b"a/b%s"]

# UTF-8, and bytes that are none: Git looks at bytes, so an overlong slash or dot is neither.
UTF8 = [
    b"refs/heads/\xc3\x9f", b"refs/heads/\xe2\x82\xac", b"refs/heads/\xf0\x9f\x98\x80", b"refs/heads/u\xcc\x88",
    b"refs/heads/\xef\xbb\xbf", b"\xef\xbb\xbfrefs/heads/a", b"refs/heads/\xe3\x80\x82", b"refs\xef\xbc\x8fheads", b"\xc3\x9f",
    b"\xc3\x9f/\xc3\x9f", b"refs/\x80", b"refs/\xbf\xbf", b"refs/\xc3", b"refs/\xc3/a", b"refs/\xe2\x82", b"refs/\xf0\x9f\x98",
    b"refs\xc0\xafheads", b"refs/\xc0\xaea", b"a/\xc0\xae\xc0\xae/b", b"refs/\xc0\x80", b"refs/\xed\xa0\x80",
    b"refs/\xf4\x90\x80\x80", b"refs/\xf8\x88\x80\x80\x80", b"refs/\xfe\xff", b"\xff\xfe/\xff\xff", b"\x80/\x80", b"\xff",
    b"a\xc2\x85/b", b"a/b\xc2\xa0", b"\xe2\x80\xa8a/b", b"refs/a\x80..b", b"refs/\xff.lock", b"refs/\xff@{", b"refs/\xff/.", b"refs/\xff.",
]

# No program can be given these as an argument, so Git is not asked; its page forbids control characters.
NUL = [
    b"\0", b"refs/a\0b", b"refs/\0a", b"refs/a\0", b"\0/a", b"\0a/b", b"a\0/b", b"a/b\0.lock", b"a/b.lock\0", b"a\0", b"a.lock\0/b",
    b"refs/\0\0",
]


def long_names():
    """Names as long as the longest of an edit (4,096 bytes), one shorter and one longer, and one that only its end refuses."""
    good = [b"refs/" + b"n" * (length - 5) for length in (255, 256, 257, 4095, 4096, 4097)]
    return good + [b"refs/" + b"n" * (4097 - 10) + b".lock", b"a" * 257, b"a/" * 127 + b"ab", b"a/" * 128]


def strings(alphabet, longest):
    """Every string of one to `longest` letters, the short ones first."""
    for length in range(1, longest + 1):
        for letters in itertools.product(alphabet, repeat=length):
            yield b"".join(letters)


def filled(places, words):
    """Each word at each place."""
    return [place % word for word in words for place in places]


def groups():
    """The names, by title. A name that an earlier group has is left out of a later one."""
    letters = [b"a", b"/", b".", b"@", b"{"]
    each = [bytes([b]) for b in range(1, 256)]
    yield "Git's own cases, of t1402, with no option", T1402
    yield "every string of one to four of a / . @ {", strings(letters, 4)
    yield "every byte inside a name", filled([b"refs/a%sb"], each)
    yield "every byte as the first of a component", filled([b"refs/%sa"], each)
    yield "every byte as the last of a name", filled([b"refs/a%s"], each)
    yield "words of the rules, and near ones, at each place", filled(PLACES, WORDS)
    yield "lock names", LOCKS_IN_EACH_PLACE + LOCKS
    yield "one component, and names as repositories have them", COMMON
    yield "line ends and blanks", filled(BLANK_PLACES, BLANKS)
    yield "UTF-8, and bytes that are none", UTF8
    yield "long names", long_names()
    yield "names with a NUL, which no program's argument can hold", NUL


def number(name):
    """What the library shall say: Git's answer, and for a NUL its page's."""
    return 0 if b"\0" not in name and alone(name) else 3


def answered():
    """Each group's title and its names with their numbers."""
    git = subprocess.run(["git", "version"], capture_output=True, text=True, check=True).stdout.strip()
    seen = set()
    for title, names in groups():
        new = [name for name in dict.fromkeys(names) if name not in seen]
        seen.update(new)
        yield f"names, {git}: {title}", [(name, number(name)) for name in new]
