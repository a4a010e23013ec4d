#!/usr/bin/env -S python3 -B
"""A server of a script's own, at a free port. It needs Python and Linux, and `rt` where nothing that serves stands yet.

    tools/served.py [--proved] [--program PATH] [--config FILE] [--load JOURNAL] [--front F] COMMAND..

runs a command with the environment in which AWS clients ask such a server as the first caller of its configuration (examples/config.json),
and fails where the command does. With --front the server takes 32 connections and ends by itself: the closing line is told, and has to have
F entries. Which program serves is said in built.py. In Python the same is

    with served.Account() as account:
        print(account.client().list_keys()["Keys"])
"""

import argparse
import json
import os
import re
import select
import socket
import subprocess
import sys
import tempfile
import time

import built
from built import CONFIG, PROGRAM, Failure

HOST = "127.0.0.1"
REGION = "us-east-1"  # of examples/config.json
CLOSING = re.compile(r"^served (\d+) front (\d+)$", re.MULTILINE)
START_SECONDS = 120  # a journal of 1,000,000 entries is loaded in 40
END_SECONDS = 60


def settings_of(config):
    """The members of a configuration."""
    try:
        with open(config, encoding="utf-8") as file:
            settings = json.load(file)
    except OSError as error:
        raise Failure(f"{config} can't be read: {error.strerror}") from None
    except ValueError as error:
        raise Failure(f"{config} isn't JSON: {error}") from None
    if not isinstance(settings, dict) or not isinstance(settings.get("boot", 1), int):
        raise Failure(f"{config} is no configuration with a boot number")
    return settings


def callers(config=CONFIG):
    """The credentials of a configuration: in examples/config.json those of the keeper, who is the root, and of ann."""
    return settings_of(config)["credentials"]


def boot_in(journal):
    """The boot number of a journal, by its first line."""
    try:
        with open(journal, encoding="utf-8", errors="replace") as file:
            found = re.fullmatch(r"kms-journal 1 [0-9]+ [a-z0-9-]+ ([0-9]+)\n", file.readline())
    except OSError as error:
        raise Failure(f"{journal} can't be read: {error.strerror}") from None
    if not found:
        raise Failure(f"{journal} is no journal")
    return int(found[1])


def configured(folder, config, journal=None):
    """The words that name a configuration and a journal. The boot number is above the journal's, in a copy of the configuration in a folder."""
    settings = settings_of(config)
    if journal:
        settings["boot"] = max(settings.get("boot", 1), boot_in(journal) + 1)
    path = os.path.join(folder, "config.json")
    with open(os.open(path, os.O_WRONLY | os.O_CREAT | os.O_TRUNC, 0o600), "w", encoding="utf-8") as file:
        json.dump(settings, file)
    return ["--config", path, *(["--load", str(journal)] if journal else [])]


def isolate():
    """Takes proxies, and what AWS clients would find of other accounts, from the environment."""
    for name in list(os.environ):
        if name.startswith("AWS_") or name.lower().endswith("_proxy"):
            del os.environ[name]
    os.environ["AWS_CONFIG_FILE"] = os.environ["AWS_SHARED_CREDENTIALS_FILE"] = os.devnull
    os.environ["AWS_EC2_METADATA_DISABLED"] = "true"
    os.environ["AWS_MAX_ATTEMPTS"] = "1"


def boto3_client(server, caller, region=REGION):
    """A client of boto3 for a caller, which tries each call once, and asks no proxy."""
    import boto3
    from botocore.config import Config

    session = boto3.Session(caller["accessKeyId"], caller["secret"], region_name=region)
    once = Config(retries={"total_max_attempts": 1}, connect_timeout=10, read_timeout=60, proxies={})
    return session.client("kms", endpoint_url=server.endpoint, config=once)


class Server:
    """A process that serves: each of its workers takes so many connections, or as many as come. In a `with` it is ended at the end, however
    that comes."""

    def __init__(self, program=PROGRAM, workers=8, connections=1, words=("--config", CONFIG), stdin=subprocess.DEVNULL):
        if not os.path.exists(program):
            raise Failure(f"{program} isn't there: examples/serve --proved builds it")
        self.taken = connections and workers * connections
        self.said = tempfile.TemporaryFile("w+")
        bound = ["--connections", str(connections)] if connections else []
        self.port, self.process = None, None
        try:
            self.start([program, "serve", *words, "--listen", f"{HOST}:0", "--workers", str(workers), *bound], stdin)
        except BaseException:
            self.end()
            raise

    def start(self, words, stdin):
        """Starts the program at a port that it finds, and waits for the line that tells the port."""
        self.process = subprocess.Popen(words, stdin=stdin, stdout=self.said, stderr=subprocess.PIPE, text=True)
        ready = select.select([self.process.stderr], [], [], START_SECONDS)[0]
        line = self.process.stderr.readline() if ready else ""
        found = re.fullmatch(rf"listening on {HOST}:(\d+)\n", line)
        if not found:
            raise Failure(f"the server didn't listen: {line.strip() or self.told().strip()}")
        self.port = int(found.group(1))

    @property
    def endpoint(self):
        """The address for AWS clients."""
        return f"http://{HOST}:{self.port}"

    def told(self):
        """What the process wrote."""
        self.said.seek(0)
        return self.said.read()

    def take_one(self):
        """Takes a connection that no client wanted, and closes it once the server has."""
        with socket.create_connection((HOST, self.port), timeout=END_SECONDS) as bare:
            bare.shutdown(socket.SHUT_WR)
            bare.recv(1)

    def finish(self):
        """Takes the connections that are left until the server ends, and gives the number of entries of its closing line."""
        deadline = time.monotonic() + END_SECONDS
        while self.process.poll() is None:
            if time.monotonic() > deadline:
                raise Failure("the server didn't end, though its clients did")
            try:
                self.take_one()
            except ConnectionError:
                time.sleep(0.05)
        line = CLOSING.search(self.told())
        if self.process.returncode or not line or int(line.group(1)) != self.taken:
            raise Failure(f"the server ended with {self.process.returncode}: {self.told()}")
        return int(line.group(2))

    def end(self):
        """Ends the process, where it still runs."""
        if self.process:
            self.process.terminate()
            self.process.wait()
            for pipe in (self.process.stdin, self.process.stderr):
                if pipe:
                    pipe.close()
        self.said.close()

    def __enter__(self):
        return self

    def __exit__(self, *_):
        self.end()


class Account(Server):
    """An account of one's own, empty or with the entries of a journal, and a server of it, for as many connections as come. Nothing of it is
    left at the end."""

    def __init__(self, program=None, config=CONFIG, journal=None, workers=8, connections=None):
        self.program, self.config, self.settings = program or built.chosen(), config, settings_of(config)
        self.folder, self.clients = tempfile.TemporaryDirectory(), []
        words = [*configured(self.folder.name, config, journal), "--export"]
        super().__init__(self.program, workers, connections, words, subprocess.PIPE)

    def caller(self, name=None):
        """The credential of an access key or a principal, or the first one of the configuration."""
        for found in self.settings["credentials"]:
            if name in (None, found["accessKeyId"], found["principal"]):
                return found
        raise Failure(f"{name} has no credential in {self.config}")

    def client(self, name=None):
        """A client of boto3 for a caller."""
        self.clients.append(boto3_client(self, self.caller(name), self.settings["region"]))
        return self.clients[-1]

    def environment(self, name=None):
        """The variables by which AWS clients ask the server as a caller."""
        caller = self.caller(name)
        return {
            "AWS_ENDPOINT_URL_KMS": self.endpoint,
            "AWS_DEFAULT_REGION": self.settings["region"],
            "AWS_ACCESS_KEY_ID": caller["accessKeyId"],
            "AWS_SECRET_ACCESS_KEY": caller["secret"],
        }

    def journal(self):
        """The journal that the account leaves, a file that is there until the end. The server is ended for it."""
        path = os.path.join(self.folder.name, "journal")
        if not self.process.stdin.closed:
            self.process.stdin.close()
            self.process.wait(END_SECONDS)
            with open(path, "w", encoding="ascii") as file:
                file.write(self.told().partition("\n")[2])
        return path

    def end(self):
        for client in self.clients:
            client.close()
        super().end()
        self.folder.cleanup()


def settle(server, changes):
    """Lets the server end, and gives its closing line, where it holds as many entries as changes were answered."""
    front = server.finish()
    line = f"served {server.taken} front {front}"
    if front != changes:
        raise Failure(f"{line}, though {changes} changes were answered")
    return line


def serving_words(parser):
    """Adds the words that say which program serves."""
    parser.add_argument("--proved", action="store_true", help="prove and build the program first")
    parser.add_argument("--program", default=PROGRAM, metavar="PATH", help="the program that serves")


def option(words, name, default=None):
    """The value of an option among the words of `serve`, and the words without it."""
    for at, word in enumerate(words):
        if word == name and at + 1 < len(words):
            return words[at + 1], words[:at] + words[at + 2:]
        if word.startswith(f"{name}="):
            return word[len(name) + 1:], words[:at] + words[at + 1:]
    return default, words


def address(listen):
    """An address to listen on, where it names a port."""
    if not re.fullmatch(r".+:[0-9]+", listen):
        raise Failure(f"--listen {listen} names no port, as {HOST}:8080 does")
    return listen


def run(script):
    """Runs the main function of a script, isolated."""
    isolate()
    built.run(script)


def main():
    parser = argparse.ArgumentParser(description=__doc__, formatter_class=argparse.RawDescriptionHelpFormatter)
    serving_words(parser)
    parser.add_argument("--config", default=CONFIG, metavar="FILE", help="the configuration")
    parser.add_argument("--load", metavar="JOURNAL", help="the journal that the account begins with")
    parser.add_argument("--front", type=int, metavar="F", help="how many entries the account has at the end")
    parser.add_argument("command", nargs=argparse.REMAINDER)
    words = parser.parse_args()
    if not words.command:
        parser.error("a command is missing")
    connections = None if words.front is None else 8
    with Account(built.chosen(words.proved, words.program), words.config, words.load, 4, connections) as account:
        status = subprocess.run(words.command, env=os.environ | account.environment()).returncode
        if status == 0 and words.front is not None:
            print(settle(account, words.front))
        return status


if __name__ == "__main__":
    run(main)
