#!/usr/bin/env python3
"""A client of mqb shell: it takes, commits and lists over a pipe, and waits for each answer. The store is that of a manager alpha with a queue orders."""
import re, subprocess


class Shell:
    """A manager that stays open. It ends with its input."""

    def __init__(self, mqb, store):
        self.program = subprocess.Popen([mqb, "shell", store], stdin=subprocess.PIPE, stdout=subprocess.PIPE)

    def ask(self, *words):
        """The status and the lines of an answer. Where no end of it comes, the line was done or not: open the store again, and look."""
        self.program.stdin.write(" ".join(words).encode() + b"\n")
        self.program.stdin.flush()
        lines = []
        for line in self.program.stdout:
            # the whole line: a listing of a manager at a host named end has lines that begin so
            if end := re.fullmatch(rb"end (\d+)\n", line):
                return int(end[1]), lines
            lines.append(line.decode().rstrip("\n"))
        raise EOFError(f"the shell ended, with {self.program.wait()}, before its answer to {words[0]}")

    def close(self):
        """The status of the program."""
        self.program.stdin.close()
        return self.program.wait()


def main():
    shell = Shell("mqb", "alpha.store")
    status, answer = shell.ask("take", "orders")
    print(status, *answer)
    orders = r"send,DIRECT=OS:alpha\PRIVATE$\orders,-,-,-,-,-"
    for words in (["commit", f"{orders},one", f"{orders},two"], ["list"], ["take", "orders"], ["commit", "take,orders"], ["take", "no such queue"]):
        status, answer = shell.ask(*words)
        print(words[0], status, *answer, sep="\n  ")
    print("ended", shell.close())


if __name__ == "__main__":
    main()
