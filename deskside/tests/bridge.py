"""A port of this machine behind which a `lawdesk batch` answers, one connection at a time: to a client it is a `lawdesk serve`. What a network or a crash may do is
done on demand: a connection is cut, a request or a response is lost whole or in part, or comes late, and the desk is killed."""
import socket
import subprocess
import threading
import time

import desk

# What may be done to the next request, and to the response to it.
FORWARD, BACK = ("lose the request", "cut the request", "kill before"), ("lose the response", "cut the response", "kill after")


class Bridge:
    def __init__(self, folder, port=0):
        self.folder, self.count, self.todo, self.late = folder, 0, [], 0
        self.link = self.ran = None
        self.listening = socket.create_server(("127.0.0.1", port))
        self.port = self.listening.getsockname()[1]
        self.thread = threading.Thread(target=self.serve, daemon=True)
        self.thread.start()

    def serve(self):
        while True:
            try:
                self.link, _ = self.listening.accept()
            except OSError:
                return
            self.count += 1
            self.ran = subprocess.Popen([desk.PROGRAM, "batch"], cwd=self.folder, stdin=subprocess.PIPE, stdout=subprocess.PIPE, stderr=subprocess.DEVNULL)
            back = threading.Thread(target=self.carry_back, args=(self.link, self.ran), daemon=True)
            back.start()
            self.carry(self.link, self.ran)
            back.join()
            self.ran.stdout.close()
            self.ran.wait()
            self.link.close()

    def carry(self, link, ran):
        """What the client sends, to the desk."""
        try:
            while data := link.recv(65536):
                fault = self.next_of(FORWARD)
                if fault == "kill before":
                    ran.kill()
                if fault:
                    self.cut(link)
                    ran.stdin.write(data[: len(data) // 2] if fault == "cut the request" else b"")
                    break
                ran.stdin.write(data)
                ran.stdin.flush()
        except OSError:
            pass
        try:
            ran.stdin.close()
        except OSError:
            pass

    def carry_back(self, link, ran):
        """What the desk answers, to the client. The connection ends with the desk."""
        try:
            while data := ran.stdout.read1(65536):
                time.sleep(self.late)
                fault = self.next_of(BACK)
                if fault == "kill after":
                    ran.kill()
                link.sendall(data[: len(data) // 2] if fault == "cut the response" else data if fault is None else b"")
                if fault:
                    break
        except OSError:
            pass
        self.cut(link)

    def next_of(self, faults):
        return self.todo.pop(0) if self.todo and self.todo[0] in faults else None

    def cut(self, link=None):
        """Ends a connection, or the one that there is."""
        try:
            (link or self.link).shutdown(socket.SHUT_RDWR)
        except OSError:
            pass

    def end(self):
        self.listening.shutdown(socket.SHUT_RDWR)
        self.listening.close()
        if self.link is not None:
            self.cut()
        self.thread.join(10)
