#!/usr/bin/env python3
"""A warm interpreter. The commands of contrib/ and the stand-ins of tools run as forks of it, which takes a tenth of
the time that they take by themselves, and stand-ins that wait for nothing within it, which takes a fifth of that;
client.c hands over what a call has. Where there is no C compiler they run by themselves."""
import array, compileall, contextlib, fcntl, gc, importlib, importlib.util, io, os, select, shutil, signal, socket
import subprocess, sys, termios, threading, time, tomllib, traceback, types
from unittest import mock

HERE = os.path.dirname(os.path.realpath(__file__))
CONTRIB = os.path.join(os.path.dirname(os.path.dirname(HERE)), "contrib")
with open(f"{CONTRIB}/pyproject.toml", "rb") as file:
    COMMANDS = {name: main.partition(":")[0] for name, main in tomllib.load(file)["project"]["scripts"].items()}
STAND_INS = ["lvs", "pvs", "pvmove", "osdmaptool", "crushtool", "ceph"]
AT_ONCE = {*STAND_INS} - {"pvmove"}  # those that wait for nothing
# commands that begin nothing, and wait for nothing
READERS = ["from-lvm", "to-lvm", "from-ceph", "to-ceph", "from-folders", "picture", "report", "summary", "witness",
           "progress"]


def package():
    """Loads the package from its folder, and gives the main functions of the commands."""
    folder = f"{CONTRIB}/migrate_tools"
    spec = importlib.util.spec_from_file_location("migrate_tools", f"{folder}/__init__.py",
                                                  submodule_search_locations=[folder])
    sys.modules["migrate_tools"] = importlib.util.module_from_spec(spec)
    return {name: importlib.import_module(module).main for name, module in COMMANDS.items()}


MAINS = package()


def clocks(environ):
    """What a test sets: the time is what the file CLOCK says, and that of --until has come once the file OVER is
    there."""
    if "CLOCK" in environ:
        def now():
            with open(environ["CLOCK"], encoding="ascii") as file:
                return float(file.read())
        time.time = now
    if "OVER" in environ:
        sys.modules["migrate_tools.clock"].Clock.is_over = lambda self: os.path.exists(environ["OVER"])


def heard(call):
    """What a client hands over: its folder, words and environment, and its input and outputs."""
    data, told, *_ = call.recvmsg(1 << 16, socket.CMSG_LEN(12))
    while len(data) < 4 + int.from_bytes(data[:4], sys.byteorder):
        data += call.recv(1 << 20)
    folder, count, *words = os.fsdecode(data[4:-1]).split("\0")
    environ = dict(it.split("=", 1) for it in words[int(count):] if "=" in it)
    return folder, words[:int(count)], environ, array.array("i", told[0][2])


def status_of(main):
    """Does a call, says why it stops, and gives its status."""
    try:
        main()
    except SystemExit as end:
        if isinstance(end.code, str):
            print(end.code, file=sys.stderr)
        return end.code if isinstance(end.code, int) else int(end.code is not None)
    except BaseException:
        traceback.print_exc()
        return 1
    return 0


def said(main, words, environ):
    """Does a call within this process; gives what it prints and says, and its status."""
    argv, sys.argv = sys.argv, words
    out, err = (io.TextIOWrapper(io.BytesIO(), "utf-8", "surrogateescape", "\n") for _ in range(2))
    with (mock.patch.dict(os.environ, environ) if environ else contextlib.nullcontext(),
          contextlib.redirect_stdout(out), contextlib.redirect_stderr(err)):
        status = status_of(main)
    sys.argv = argv
    for it in (out, err):
        it.flush()
    return [it.buffer.getvalue() for it in (out, err)], status


def fits(handle, size):
    """Whether so many bytes can be written without a wait: a pipe has nothing in it, and room."""
    try:
        room = fcntl.fcntl(handle, fcntl.F_GETPIPE_SZ)
        return size <= room and not any(fcntl.ioctl(handle, termios.FIONREAD, bytes(4)))
    except OSError:
        return True  # it is no pipe


def hand_over(call, handles, texts, status):
    """Writes what was printed, that on standard error first, as where it isn't kept back, and tells the status."""
    for handle, text in zip(reversed(handles), reversed(texts)):
        try:
            while text:
                text = text[os.write(handle, text):]
        except OSError:
            status = status or 120
    call.send(bytes([status]))


def within(client, main):
    """`subprocess.run` for a command that is a fork of this one: what it calls of the stand-ins that wait for nothing
    it does by itself, a call after the other, where it would find them behind this client."""
    one_at_a_time = threading.Lock()

    def run(words, cwd=".", **more):
        if words[0] not in AT_ONCE or os.path.realpath(shutil.which(words[0]) or "") != client:
            return subprocess.run(words, cwd=cwd, **more)
        with one_at_a_time, contextlib.chdir(cwd):
            texts, status = said(main, list(words), {})
        return subprocess.CompletedProcess(words, status, *map(bytes.decode, texts))

    return types.SimpleNamespace(run=run, DEVNULL=subprocess.DEVNULL)


def answer(call, calls, words, environ, handles):
    """Does a call in this process, which is a fork, and tells its status."""
    for at, handle in enumerate(handles):
        os.dup2(handle, at)
        os.close(handle)
    for name in os.environ.keys() - environ.keys():
        del os.environ[name]
    os.environ.update(environ.items() - os.environ.items())
    sys.argv = words
    sys.stdin, sys.stdout = open(0, closefd=False), open(1, "w", closefd=False, errors="surrogateescape")
    sys.stderr = open(2, "w", closefd=False, buffering=1, errors="backslashreplace")
    clocks(os.environ)
    status = status_of(calls[os.path.basename(words[0])])
    for file in (sys.stdout, sys.stderr):
        try:
            file.flush()
        except OSError:
            status = status or 120
    call.send(bytes([status]))


def serve(listening, ready, client):
    """Answers each call, as long as `ready`, a pipe of who began this, is open: within this process where nothing
    waits, and else in a fork of its own, which is killed where the client is."""
    stand_in = importlib.import_module("stand_in")
    calls = {**MAINS, **dict.fromkeys(STAND_INS, stand_in.main)}
    sys.modules["migrate_tools.calls"].subprocess = within(client, stand_in.main)
    stand_in.cluster()
    gc.disable()
    gc.freeze()  # a fork then copies less
    forks = {}  # by the sockets of their clients
    while True:
        heard_of = select.select([listening, ready, *forks], [], [])[0]
        if ready in heard_of:
            os._exit(0)
        for client in forks.keys() & heard_of:
            os.kill(forks[client], signal.SIGKILL)  # it has answered, or its client is gone
            os.waitpid(forks.pop(client), 0)
            client.close()
        if listening in heard_of:
            call, _ = listening.accept()
            folder, words, environ, handles = heard(call)
            name = os.path.basename(words[0])
            os.chdir(folder)
            os.environ["STAND_IN"] = environ["STAND_IN"]
            told = name in AT_ONCE and said(stand_in.main, words, {})
            if told and all(fits(it, sum(map(len, told[0]))) for it in handles[1:]):
                hand_over(call, handles, *told)
                call.close()
            else:
                forks[call] = os.fork()
                if not forks[call]:
                    if told:
                        hand_over(call, handles, *told)
                    else:
                        answer(call, calls, words, environ, handles)
                    os._exit(0)
            for it in handles:
                os.close(it)


def begin(folder):
    """Makes what a room has: the commands in `folder`/contrib, and compiled in `folder`/alone, and the stand-ins in
    `folder`/tools. Begins the server, and gives its process and the pipe at whose end it ends."""
    for name in ("contrib", "tools"):
        os.mkdir(f"{folder}/{name}")
    shutil.copytree(CONTRIB, f"{folder}/alone", ignore=shutil.ignore_patterns("samples"))
    compileall.compile_dir(f"{folder}/alone", quiet=2)
    os.symlink(f"{CONTRIB}/samples", f"{folder}/contrib/samples")
    client = None
    if shutil.which("cc"):
        client = f"{os.path.realpath(folder)}/client"
        subprocess.run(["cc", f'-DSERVER="{folder}/calls"', "-o", client, f"{HERE}/client.c"], check=True)
    for name in COMMANDS:
        os.symlink(client or f"{HERE}/server.py", f"{folder}/contrib/{name}")
    for name in STAND_INS:
        os.symlink(client or f"{HERE}/stand_in.py", f"{folder}/tools/{name}")
    if client:
        listening = socket.socket(socket.AF_UNIX)
        listening.bind(f"{folder}/calls")
        listening.listen(64)
        ready, open_ = os.pipe()
        if (server := os.fork()) == 0:
            os.close(open_)
            serve(listening, ready, client)
        os.close(ready)
        listening.close()
        return server, open_
    return None


if __name__ == "__main__":
    clocks(os.environ)
    MAINS[os.path.basename(sys.argv[0])]()
