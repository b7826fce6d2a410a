"""Runs a dialogue by one program, in a folder of its own, and tells its course."""
import fcntl
import os
import re
import select
import shutil
import subprocess
import time
from dataclasses import dataclass

HERE = os.path.dirname(os.path.realpath(__file__))
# A dialogue that takes so many seconds hangs.
PATIENCE = 60
# Files of a dialogue that are neither logs nor what peers heard.
OTHERS = {"peer", "steps", "watched", "script", "over", "done", "shown", "errors"}
# Expect closes descriptors with small numbers.
HIGH = 50
# Stands before each script.
HEAD = """set timeout -1
proc start {name} {
    global spawn_id who
    spawn -noecho ./peer $name
    set who($spawn_id) $name
    set spawn_id
}
proc call {name} {
    global spawn_id who port
    set channel [socket 127.0.0.1 $port($name)]
    spawn -noecho -open $channel
    set who($spawn_id) $name
    set channel
}
proc told {what} {
    global expect_out who
    foreach element {0,start 0,end 0,string buffer} {
        if {[info exists expect_out($element)]} {append what " $element=<$expect_out($element)>"}
    }
    if {[info exists expect_out(spawn_id)]} {append what " $who($expect_out(spawn_id))"}
    puts $what
}
"""
# Stands before that under Expect: its terminals neither echo nor change what passes, what it puts is shown at once, and
# values have the form of this project's.
HEAD_OF_EXPECT = """set stty_init {raw -echo}
fconfigure stdout -translation binary -buffering none
rename wait expect_wait
proc wait {args} {lrange [uplevel 1 [linsert $args 0 expect_wait]] 0 4}
rename log_user expect_log_user
proc log_user {args} {uplevel 1 [linsert $args 0 expect_log_user]; return}
"""
COMMANDS = {"rx": [], "expect": ["-n", "-N"]}


@dataclass
class Course:
    """What was shown, what came on standard error, the status, and the files that were left: logs, and what peers
    heard. A dialogue that hangs has no status."""

    shown: bytes
    errors: bytes
    status: object
    files: dict


def bytes_of(path):
    with open(path, "rb") as it:
        return it.read()


def without_returns(text):
    """Expect writes a carriage return where it shows what is started; each other one is a peer's."""
    return re.sub(rb"(spawn [^\r\n]*)\r\n", rb"\1\n", text)


def started_servers(names, folder):
    """Peers that listen, and the lines that tell a script their ports."""
    servers = [subprocess.Popen(["./peer", it, "serves"], cwd=folder, stdin=subprocess.DEVNULL) for it in names]
    lines = ""
    for name, server in zip(names, servers):
        while not os.path.exists(f"{folder}/port.{name}"):
            if server.poll() is not None:
                raise OSError(f"the peer {name} does not listen")
            time.sleep(0.002)
        lines += f"set port({name}) {bytes_of(f'{folder}/port.{name}').decode()}\n"
        os.remove(f"{folder}/port.{name}")
    return servers, lines


def run(words, folder):
    """The status of a program, or none where it hangs. All that it started holds the end of a pipe, and is waited for."""
    held, end = os.pipe()
    high = fcntl.fcntl(end, fcntl.F_DUPFD, HIGH)
    os.close(end)
    with open(f"{folder}/shown", "wb") as shown, open(f"{folder}/errors", "wb") as errors:
        program = subprocess.Popen(
            words,
            cwd=folder,
            stdin=subprocess.DEVNULL,
            stdout=shown,
            stderr=errors,
            pass_fds=[high],
            env={**os.environ, "LC_ALL": "C"},
        )
    os.close(high)
    try:
        status = program.wait(PATIENCE)
    except subprocess.TimeoutExpired:
        program.kill()
        program.wait()
        status = None
    with open(f"{folder}/over", "wb"):
        pass
    select.select([held], [], [], PATIENCE)
    os.close(held)
    return status


def perform(dialogue, kind, program, folder):
    """The course of a dialogue by a program of a kind, rx or expect."""
    os.makedirs(folder)
    os.symlink(f"{HERE}/peer", f"{folder}/peer")
    for path in dialogue.files:
        shutil.copy(path, folder)
    with open(f"{folder}/steps", "w", encoding="ascii") as it:
        it.writelines(f"{who} {verb} {text.hex()}\n" for who, verb, text in dialogue.steps)
    with open(f"{folder}/watched", "w", encoding="ascii") as it:
        it.write(dialogue.watched())
    servers, ports = started_servers(dialogue.servers, folder)
    with open(f"{folder}/script", "w", encoding="latin-1") as it:
        it.write(HEAD_OF_EXPECT * (kind == "expect") + HEAD + ports + dialogue.script)
    status = run([program, *COMMANDS[kind], "script"], folder)
    for server in servers:
        server.wait()
    return course_of(status, folder)


def course_of(status, folder):
    left = set(os.listdir(folder)) - OTHERS
    files = {it: without_returns(bytes_of(f"{folder}/{it}")) for it in sorted(left)}
    shown = without_returns(bytes_of(f"{folder}/shown"))
    return Course(shown, bytes_of(f"{folder}/errors"), status, files)
