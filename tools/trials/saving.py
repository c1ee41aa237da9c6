"""The cases of ./trial in which a stack is saved, where that goes wrong or others write too."""

import os
import shutil
import signal
import stat
import threading
from typing import Callable, List

from .place import (GROUP, NEW, NOBODY, OLD, REFUSED, RENAME, SAVED, CHANGED, DEMO, Pairs, Place, as_member, not_saved,
                    put_text, text_of, with_small_files)


def plain_save(place: Place) -> Pairs:
    yield place.run([RENAME, ".save"]), (SAVED, 0, "")
    yield place.look(), (NEW, ["STACK"])


def file_under_the_other_name(place: Place) -> Pairs:
    put_text(place.beside, "of another")
    yield place.run([RENAME, ".save"]), (SAVED, 0, "")
    yield place.look(), (NEW, ["STACK", "STACK.new"])
    yield text_of(place.beside), "of another"


def file_under_the_other_name_and_no_save(place: Place) -> Pairs:
    put_text(place.beside, "of another")
    told = not_saved("the file would be too large")
    yield place.run([RENAME, ".save"], before=with_small_files), (REFUSED, 0, told)
    yield place.look(), (OLD, ["STACK", "STACK.new"])
    yield text_of(place.beside), "of another"


def folder_under_the_other_name(place: Place) -> Pairs:
    os.mkdir(place.beside)
    yield place.run([RENAME, ".save", ".history"]), (SAVED + ["> 1 0", "ok"], 0, "")
    yield place.look(), (NEW, ["STACK", "STACK.new"])


def read_only_file(place: Place) -> Pairs:
    os.chmod(place.stack, 0o444)
    yield place.run([RENAME, ".save", ".history"]), (REFUSED + ["> 1 0", "ok"], 0, not_saved("no permission"))
    yield place.look(), (OLD, ["STACK"])
    yield place.mode(), 0o444


def symbolic_link(place: Place) -> Pairs:
    target = os.path.join(place.folder, "target")
    os.rename(place.stack, target)
    os.symlink("target", place.stack)
    yield place.run([RENAME, ".save"]), (SAVED, 0, "")
    yield os.readlink(place.stack), "target"
    yield text_of(target), NEW
    yield place.names(), ["STACK", "target"]


def folder_without_rights(place: Place) -> Pairs:
    os.chmod(place.folder, 0o555)
    yield place.run([RENAME, ".save", ".save"]), (REFUSED + ["refused 7"], 0, not_saved("no permission") * 2)
    yield place.look(), (OLD, ["STACK"])
    os.chmod(place.folder, 0o755)


def folder_that_cannot_be_read(place: Place) -> Pairs:
    os.chmod(place.folder, 0o333)
    told = "card_cli: saved, but the folder couldn't be synced to the disk\n"
    yield place.run([RENAME, ".save"]), (SAVED, 0, told)
    os.chmod(place.folder, 0o755)
    yield place.look(), (NEW, ["STACK"])


def rights_that_come_back(place: Place) -> Pairs:
    os.chmod(place.folder, 0o555)
    talk = place.talk()
    yield talk.ask(".save"), "refused 7"
    os.chmod(place.folder, 0o755)
    yield talk.ask(".save"), "ok"
    yield talk.end(), (0, not_saved("no permission"))
    yield text_of(place.stack), NEW


def full_disk(place: Place) -> Pairs:
    told = not_saved("the file would be too large")
    yield place.run([RENAME, ".save", ".history"], before=with_small_files), (REFUSED + ["> 1 0", "ok"], 0, told)
    yield place.look(), (OLD, ["STACK"])


def killed_before_the_rename(place: Place) -> Pairs:
    env = place.signalled(signal.SIGKILL, "rename")
    answers, status, _ = place.run([RENAME, ".save", ".where"], env=env)
    yield (answers, status), (["ok"], -signal.SIGKILL)
    yield place.look(), (OLD, ["STACK", "STACK.new"])
    yield text_of(place.beside), NEW
    # What stayed there stays, and doesn't stop a later save, nor one that is killed too.
    yield place.run([RENAME, ".save"], env=env)[1], -signal.SIGKILL
    yield place.run([RENAME, ".save"]), (SAVED, 0, "")
    yield place.look(), (NEW, ["STACK", "STACK.new", "STACK.new1"])


def ended_while_saving(place: Place) -> Pairs:
    """The file has the old text up to the rename, and the new one from then on."""
    for number in (signal.SIGINT, signal.SIGTERM, signal.SIGKILL):
        for at, nth, left in (("fchmod", 1, OLD), ("fsync", 1, OLD), ("rename", 1, OLD), ("fsync", 2, NEW)):
            place.fill()
            answers, status, _ = place.run([RENAME, ".save"], env=place.signalled(number, at, nth))
            yield (at, nth, answers, status), (at, nth, ["ok"], -number)
            yield text_of(place.stack), left


def folder_is_synced(place: Place) -> Pairs:
    """After the rename, the folder is open where something is synced."""
    talk = place.talk(env=place.signalled(signal.SIGSTOP, "fsync", 2))
    talk.tell(".save")
    talk.wait_till_stopped()
    opened = "/proc/%d/fd" % talk.program.pid
    yield text_of(place.stack), NEW
    yield place.folder in [os.readlink(os.path.join(opened, name)) for name in os.listdir(opened)], True
    talk.go_on()
    yield talk.heard(), "ok"
    yield talk.end(), (0, "")


def changed_by_another(place: Place) -> Pairs:
    talk = place.talk()
    put_text(place.stack, OLD + "more")
    yield talk.ask(".save"), "refused 7"
    yield place.look(), (OLD + "more", ["STACK"])
    # Also where it has the old text again, but was written later.
    put_text(place.stack, OLD)
    yield talk.ask(".save"), "refused 7"
    yield talk.end(), (0, CHANGED * 2)
    yield place.look(), (OLD, ["STACK"])


def changed_in_one_thing(place: Place) -> Pairs:
    """The size alone, the time alone, or which file it is alone; but not who may use it."""
    def longer() -> None:
        put_text(place.stack, OLD + "more")

    def other_file() -> None:
        shutil.copyfile(DEMO, place.beside)
        os.rename(place.beside, place.stack)

    for change, later in ((longer, 0), (lambda: None, 1), (other_file, 0)):
        place.fill(0o666)
        talk = place.talk()
        at = os.stat(place.stack).st_mtime_ns
        change()
        os.utime(place.stack, ns=(at, at + later))
        found = text_of(place.stack)
        os.chmod(place.stack, 0o666)
        yield talk.ask(".save"), "refused 7"
        yield talk.end(), (0, CHANGED)
        yield place.look(), (found, ["STACK"])
    place.fill()
    talk = place.talk()
    os.chmod(place.stack, 0o600)
    yield talk.ask(".save"), "ok"
    yield (talk.end(), place.mode()), ((0, ""), 0o600)


def changed_while_saving(place: Place) -> Pairs:
    """What is written after the first look, and before the rename, is seen too."""
    talk = place.talk(env=place.signalled(signal.SIGSTOP, "fsync"))
    talk.tell(".save")
    talk.wait_till_stopped()
    put_text(place.stack, "of another")
    talk.go_on()
    yield talk.heard(), "refused 7"
    yield talk.end(), (0, CHANGED)
    yield place.look(), ("of another", ["STACK"])


def two_programs(place: Place) -> Pairs:
    first, second = place.talk(), place.talk()
    yield first.ask(".save"), "ok"
    yield second.ask(".save"), "refused 7"
    yield first.ask(".save"), "ok"
    yield (first.end(), second.end()), ((0, ""), (0, CHANGED))
    yield place.look(), (NEW, ["STACK"])


def two_programs_at_once(place: Place) -> Pairs:
    first, second = place.talk(env=place.signalled(signal.SIGSTOP, "rename")), place.talk()
    first.tell(".save")
    first.wait_till_stopped()
    yield second.ask(".save"), "refused 7"
    yield second.end(), (0, not_saved("another program has locked the file"))
    yield place.look(), (OLD, ["STACK", "STACK.new"])
    first.go_on()
    yield first.heard(), "ok"
    yield first.end(), (0, "")
    yield place.look(), (NEW, ["STACK"])


def file_that_is_gone(place: Place) -> Pairs:
    place.fill(0o640)
    talk = place.talk()
    os.remove(place.stack)
    yield talk.ask(".save"), "ok"
    yield talk.end(), (0, "")
    yield place.look(), (NEW, ["STACK"])
    yield place.mode(), 0o640


def mode_and_group(place: Place) -> Pairs:
    """They are those of the file before any text is in the new one."""
    if os.geteuid() != 0:
        print("mode_and_group: only the administrator can try it")
        return
    for at, mode in (("fchmod", 0o600), ("fsync", 0o660)):
        place.fill()
        os.chown(place.stack, NOBODY, GROUP)
        os.chmod(place.stack, 0o660)
        talk = place.talk(as_member, place.signalled(signal.SIGSTOP, at))
        talk.tell(".save")
        talk.wait_till_stopped()
        new = os.stat(place.beside)
        yield (at, stat.S_IMODE(new.st_mode), new.st_gid), (at, mode, GROUP)
        talk.go_on()
        yield talk.heard(), "ok"
        yield talk.end(), (0, "")
        yield (place.mode(), os.stat(place.stack).st_gid), (0o660, GROUP)


def group_of_others(place: Place) -> Pairs:
    """A group that can't be kept gives no rights to another one."""
    if os.geteuid() != 0:
        print("group_of_others: only the administrator can try it")
        return
    os.chown(place.stack, NOBODY, GROUP)
    os.chmod(place.stack, 0o664)
    told = "card_cli: saved, but the file couldn't keep its group\n"
    yield place.run([RENAME, ".save"]), (SAVED, 0, told)
    yield (place.mode(), os.stat(place.stack).st_gid), (0o644, NOBODY)
    # The administrator keeps the owner and the group.
    os.chown(place.stack, GROUP, GROUP)
    os.chmod(place.stack, 0o660)
    yield place.run([RENAME, ".save"], before=lambda: None), (SAVED, 0, "")
    found = os.stat(place.stack)
    yield (place.mode(), found.st_uid, found.st_gid), (0o660, GROUP, GROUP)


def long_names(place: Place) -> Pairs:
    shutil.copyfile(place.stack, os.path.join(place.folder, "n" * 251 + ".new"))
    for name in ["n" * length for length in range(250, 256)] + ["\u00e9" * 127 + "n"]:
        old, place.stack = place.stack, os.path.join(place.folder, name)
        os.rename(old, place.stack)
        put_text(place.stack, OLD)
        before = place.names()
        yield place.run([RENAME, ".save"]), (SAVED, 0, "")
        yield place.look(), (NEW, before)


def pipe_with_a_name(place: Place) -> Pairs:
    """A stack is read from it, and nothing is saved."""
    os.remove(place.stack)
    os.mkfifo(place.stack)
    os.chmod(place.stack, 0o666)
    writer = threading.Thread(target=put_text, args=(place.stack, OLD))
    writer.start()
    yield place.run([RENAME, ".save", ".history"]), (REFUSED + ["> 1 0", "ok"], 0, not_saved("it isn't a plain file"))
    writer.join()
    yield stat.S_ISFIFO(os.stat(place.stack).st_mode), True
    yield place.names(), ["STACK"]


CASES: List[Callable[[Place], Pairs]] = [
    plain_save, file_under_the_other_name, file_under_the_other_name_and_no_save, folder_under_the_other_name,
    read_only_file, symbolic_link, folder_without_rights, folder_that_cannot_be_read, rights_that_come_back,
    full_disk, killed_before_the_rename, ended_while_saving, folder_is_synced, changed_by_another,
    changed_in_one_thing, changed_while_saving, two_programs, two_programs_at_once, file_that_is_gone, mode_and_group,
    group_of_others, long_names, pipe_with_a_name,
]
