"""Programs on loopback: free ports, what they print, their versions, and their ends."""

import re
import socket
import subprocess

HOST = "127.0.0.1"
# The configuration of NSD, with what it writes in a folder of its own.
NSD = """
server:
    ip-address: {host}@{port}
    username: ""
    zonesdir: "{folder}"
    database: ""
    pidfile: "{folder}/pid"
    xfrdfile: "{folder}/xfrd"
    xfrdir: "{folder}"
    zonelistfile: "{folder}/zonelist"
remote-control:
    control-enable: no
{zones}"""


def free_port():
    """A port that is free for UDP and TCP."""
    while True:
        with socket.socket() as tcp, socket.socket(socket.AF_INET, socket.SOCK_DGRAM) as udp:
            tcp.bind((HOST, 0))
            port = tcp.getsockname()[1]
            try:
                udp.bind((HOST, port))
                return port
            except OSError:
                continue


def run(folder, *words, **more):
    """Runs a program in a folder, and gives what it printed."""
    how = {"cwd": folder, "stdin": subprocess.DEVNULL, "capture_output": True, "text": True, **more}
    ran = subprocess.run([str(it) for it in words], **how)
    if ran.returncode:
        raise RuntimeError(f"{' '.join(map(str, words))}: {ran.stdout}{ran.stderr}")
    return ran.stdout


def version(*words):
    """The number of the version that a program tells."""
    ran = subprocess.run(words, capture_output=True, text=True)
    return re.search(r"\d+\.\d[\d.]*", ran.stdout + ran.stderr)[0]


def end(process):
    """Ends a process, by force where it takes a minute."""
    process.terminate()
    try:
        process.wait(timeout=60)
    except subprocess.TimeoutExpired:
        process.kill()
        process.wait()
