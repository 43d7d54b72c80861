"""Parts of tests/command/keeping: ledgers of several modes, owners and places, disks that are full, users who may not."""

import os
import resource
import shutil
import signal
import struct
import subprocess

from ledgers import FREE, Command, read, slot, write

LEDGER = FREE * 3
ALTERED = slot(b"000000001", b"20220901", b"TESTV") + FREE * 2
OTHER_USER = 65534
IS_ROOT = os.geteuid() == 0

# Document: acl(5) and the kernel's posix_acl_xattr.h: a version, then tag, rights and number of each entry.
USER_OBJ, USER, GROUP_OBJ, MASK, OTHER, NO_NUMBER = 1, 2, 4, 16, 32, 0xFFFFFFFF
ACCESS, DEFAULT = "system.posix_acl_access", "system.posix_acl_default"
LIST = struct.pack("<I", 2) + b"".join(
    struct.pack("<HHI", tag, rights, number)
    for tag, rights, number in (
        (USER_OBJ, 6, NO_NUMBER), (USER, 6, OTHER_USER), (GROUP_OBJ, 0, NO_NUMBER), (MASK, 6, NO_NUMBER), (OTHER, 0, NO_NUMBER),
    )
)


def mode_of(path):
    return os.stat(path).st_mode & 0o7777


def expect_altered(test, name, seen):
    met = seen[0] == 0 and read(test.path("ledger")) == ALTERED and not test.left()
    test.expect(name, met, (seen, os.listdir(test.path(""))))


def modes(test):
    for mode in (0o600, 0o640, 0o666, 0o604, 0o1600):
        for mask in (0o000, 0o077, 0o777):
            test.clear(LEDGER)
            os.chmod(test.path("ledger"), mode)
            before = os.umask(mask)
            seen = test.alter()
            os.umask(before)
            expect_altered(test, f"mode {mode:o}, mask {mask:o}", seen)
            test.expect(f"mode {mode:o} is kept, mask {mask:o}", mode_of(test.path("ledger")) == mode, oct(mode_of(test.path("ledger"))))


def owners(test):
    for owner in ((12345, 23456), (0, 23456), (12345, 0)) if IS_ROOT else ((os.geteuid(), os.getegid()),):
        test.clear(LEDGER)
        os.chown(test.path("ledger"), *owner)
        os.chmod(test.path("ledger"), 0o640)
        expect_altered(test, f"owner {owner}", test.alter())
        now = os.stat(test.path("ledger"))
        test.expect(f"owner {owner} is kept", (now.st_uid, now.st_gid) == owner and now.st_mode & 0o7777 == 0o640, now)


def access_lists(test):
    test.clear(LEDGER)
    try:
        os.setxattr(test.path("ledger"), ACCESS, LIST)
    except OSError:
        return
    mode = mode_of(test.path("ledger"))
    expect_altered(test, "an access list", test.alter())
    kept = os.getxattr(test.path("ledger"), ACCESS) if ACCESS in os.listxattr(test.path("ledger")) else None
    test.expect("the access list is kept", kept == LIST and mode_of(test.path("ledger")) == mode, kept)
    test.clear(LEDGER)
    os.chmod(test.path("ledger"), 0o660)
    os.setxattr(test.path(""), DEFAULT, LIST)
    expect_altered(test, "a folder with an access list for new files", test.alter())
    test.expect("no access list comes from the folder", ACCESS not in os.listxattr(test.path("ledger")))
    test.expect("nor another mode", mode_of(test.path("ledger")) == 0o660, oct(mode_of(test.path("ledger"))))


def links(test):
    """A link stays a link, and the file at its end gets the new bytes."""
    test.clear(LEDGER)
    os.mkdir(test.path("far"))
    os.rename(test.path("ledger"), test.path("far/kept"))
    os.symlink("kept", test.path("far/near"))
    os.symlink(test.path("far/near"), test.path("ledger"))
    seen = test.alter()
    expect_altered(test, "a link to a link", seen)
    met = os.path.islink(test.path("ledger")) and os.path.islink(test.path("far/near")) and not os.path.islink(test.path("far/kept"))
    test.expect("links stay links", met and sorted(os.listdir(test.path("far"))) == ["kept", "near"], os.listdir(test.path("far")))


def strange_places(test):
    test.clear()
    os.mkdir(test.path("ledger"))
    seen = test.alter()
    test.expect("a folder", seen[0] == 2 and os.listdir(test.path("")) == ["ledger"] and os.listdir(test.path("ledger")) == [], seen)
    test.clear()
    os.symlink("nowhere", test.path("ledger"))
    seen = test.alter()
    test.expect("a link to nothing", seen[0] == 2 and "symbolic link" in seen[2] and os.listdir(test.path("")) == ["ledger"], seen)
    test.clear()
    os.symlink("ledger", test.path("ledger"))
    test.expect("a link to itself", test.alter()[0] == 2 and os.listdir(test.path("")) == ["ledger"])
    test.clear()
    os.mkfifo(test.path("ledger"))
    seen = test.alter(timeout=60)
    test.expect("a pipe", seen[0] == 2 and "regular file" in seen[2], seen)
    test.clear()
    seen = test.alter()
    test.expect("none there", seen[0] == 2 and os.listdir(test.path("")) == [], seen)
    for path in ("none/ledger", "", "/dev/null", "ledger/"):
        seen = test.run("ledger", "grow", path, "1")
        test.expect(f"'{path}'", seen[0] == 2 and os.listdir(test.path("")) == [], seen)


def stale_files(test):
    """What a killed process left: a part of a file, or whatever stands under that name."""
    stale = test.path(".ledger.tuulveski-new")
    test.clear(LEDGER)
    write(stale, b"x" * 5_000_000)
    expect_altered(test, "a stale file", test.alter())
    test.clear(LEDGER)
    write(test.path("precious"), b"precious")
    os.symlink("precious", stale)
    expect_altered(test, "a stale link", test.alter())
    test.expect("a stale link is not followed", read(test.path("precious")) == b"precious" and not os.path.islink(test.path("ledger")))
    test.clear(LEDGER)
    os.mkdir(stale)
    seen = test.alter()
    test.expect("a folder of that name", seen[0] == 2 and "in the way" in seen[2] and read(test.path("ledger")) == LEDGER, seen)


def limited(test):
    """A limit on the length of files, by which writes fail as on a full disk."""

    def limit():
        resource.setrlimit(resource.RLIMIT_FSIZE, (50, 50))
        signal.signal(signal.SIGXFSZ, signal.SIG_IGN)

    for name in test.names:
        test.clear(LEDGER)
        test.expect_unaltered(f"{name}, a limit on files", test.alter(action=name, preexec_fn=limit), LEDGER, "cannot be written")
    test.clear()
    seen = test.run("ledger", "new", "ledger", "3", preexec_fn=limit)
    test.expect("ledger new, a limit on files", seen[0] == 2 and os.listdir(test.path("")) == [], seen)


ON_SMALL_DISK = """
mount -t tmpfs -o size=100k tmpfs . && cd "$PWD" && cp "$1" ledger && head -c 40000 /dev/zero >filler && shift || exit 99
"$@" 2>"$SAID"; status=$?
cp ledger "$NOW" && ls -A >"$NAMES" && rm filler && "$@" 2>>"$SAID" || exit 98
cp ledger "$THEN" && ls -A >>"$NAMES"
exit $status
"""


def full_disks(test):
    """A disk of 100 kB, which holds the ledger and something else, but not the new ledger beside them."""
    limited(test)
    out = {name: os.path.join(test.folder, name) for name in ("SAID", "NOW", "NAMES", "THEN")}
    before = FREE * 1000
    write(os.path.join(test.folder, "old"), before)
    test.clear()
    share = ["unshare", "-m" if IS_ROOT else "-rm", "sh", "-c", ON_SMALL_DISK, "sh", os.path.join(test.folder, "old")]
    try:
        done = subprocess.run([*share, *test.command.words, "ledger", "grow", "ledger", "1"], cwd=test.path(""),
                              env=dict(os.environ, **out), capture_output=True, check=False)
    except OSError:
        done = None
    if done is None or not os.path.exists(out["NOW"]):
        if not test.quiet:
            print("no small disk could be mounted: a limit on files was tried alone")
        return
    said, names = read(out["SAID"]).decode(), read(out["NAMES"]).decode().split()
    test.expect("a full disk: the status and the words", done.returncode == 2 and "No space left" in said, (done, said))
    test.expect("a full disk: the ledger is as it was", read(out["NOW"]) == before)
    test.expect("a full disk: nothing else is there", names == ["filler", "ledger", "ledger"], names)
    test.expect("a full disk: with room again", os.path.exists(out["THEN"]) and read(out["THEN"]) == before + FREE)
    for path in out.values():
        if os.path.exists(path):
            os.unlink(path)


def as_another(test):
    """How to run the command as a user who is not root, and that user's numbers."""
    if not IS_ROOT:
        return test.command, {}, (os.geteuid(), os.getegid())
    reachable = os.path.join(test.folder, "reachable")
    shutil.copy(test.command.words[-1], reachable)
    os.chmod(reachable, 0o755)
    how = {"user": OTHER_USER, "group": OTHER_USER, "extra_groups": []}
    return Command([*test.command.words[:-1], reachable]), how, (OTHER_USER, OTHER_USER)


def permissions(test):
    command, how, owner = as_another(test)
    usual, test.command = test.command, command
    # What is tried, the ledger's owner and mode, the folder's owner and mode, what is said.
    cases = [
        ("a folder that may not be written", owner, 0o600, owner, 0o555, "no new file can be made"),
        ("a ledger that may not be written", owner, 0o444, owner, 0o755, "Permission denied"),
        ("a ledger that may not be read", owner, 0o200, owner, 0o755, "Permission denied"),
    ]
    if IS_ROOT:
        cases += [
            ("another's ledger of mode 600", (0, 0), 0o600, owner, 0o777, "Permission denied"),
            ("another's ledger that the group may write", (0, OTHER_USER), 0o660, owner, 0o777, "owner and group"),
        ]
    for name, ledger_owner, mode, folder_owner, folder_mode, said in cases:
        test.clear(LEDGER)
        os.chown(test.path("ledger"), *ledger_owner)
        os.chmod(test.path("ledger"), mode)
        os.chown(test.path(""), *folder_owner)
        os.chmod(test.path(""), folder_mode)
        seen = test.alter(**how)
        now = os.stat(test.path("ledger"))
        os.chmod(test.path(""), 0o755)
        os.chmod(test.path("ledger"), 0o600)
        test.expect_unaltered(name, seen, LEDGER, said)
        test.expect(f"{name}: owner and mode", (now.st_uid, now.st_gid, now.st_mode & 0o7777) == (*ledger_owner, mode), now)
    test.clear(LEDGER)
    os.chown(test.path("ledger"), *owner)
    os.chown(test.path(""), *owner)
    expect_altered(test, "one's own ledger", test.alter(**how))
    test.command = usual


def all_places(test):
    for part in (modes, owners, access_lists, links, strange_places, stale_files, full_disks, permissions):
        part(test)
