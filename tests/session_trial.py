"""Runs the program on a case with connections, or with a port, and compares what comes back with what is wanted."""
import socket
import tempfile
from dataclasses import replace

from server import HOST, BadServer, Server, free_port, talk, talk_in_turn
from trial import faults_of_run, faults_of_stream, lay_out
from case_file import Wanted

PIECES = {"in-1": 1, "in-7": 7}


def faults_of_case(program, case):
    """What differs, a line each; no line if the case passes."""
    port = free_port()
    case = replace(case, words=[b"%d" % port if word == b"PORT" else word for word in case.words])
    if case.errors:
        case.errors.text = case.errors.text.replace(b"PORT", b"%d" % port)
    if case.connections:
        return faults_of_session(program, case)
    with socket.socket() as listener:
        if case.is_port_taken:
            # (As `free_port` does, which takes no notice of connections that have just ended there.)
            listener.setsockopt(socket.SOL_SOCKET, socket.SO_REUSEADDR, 1)
            listener.bind((HOST, port))
            listener.listen()
        return faults_of_run(program, case)


def faults_of_session(program, case):
    """What differs in the connections, each begun once the one before has ended, or in what is left of the server."""
    faults = []
    with tempfile.TemporaryDirectory(prefix="grove-case-") as folder:
        lay_out(case, folder)
        server = Server(program, [word.decode() for word in case.words], folder)
        try:
            with server:
                for number, connection in enumerate(case.connections):
                    wanted = Wanted(connection.replies)
                    faults += faults_of_stream(f"replies {number}", wanted, came(server, connection))
                if not server.is_running():
                    faults.append(f"the server has ended with status {server.started.returncode}")
        except (BadServer, OSError) as bad:
            return faults + [str(bad)]
    if server.rest != (b"", b""):
        faults.append(f"the server has said {server.rest}")
    return faults


def came(server, connection):
    """What comes back in the connection."""
    if connection.how == "in-turn":
        return talk_in_turn(server.port, connection.sends.splitlines(keepends=True))
    piece = PIECES.get(connection.how, len(connection.sends) or 1)
    return talk(server.port, connection.sends, piece, leaves=connection.how == "and-leaves")
