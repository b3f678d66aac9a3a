#!/usr/bin/env python3
"""Dispatches a transfer exactly once: dispatch.py URL ID FROM TO DAY AMOUNT ACCOUNT [--cut].

Sends the same request again until a whole reply comes. The treasury does it once: if it was done before and its reply
got lost, the answer is `repeated`. --cut breaks the first connection before its reply, to show that. TREASURY_LOGIN may
hold NAME:PASSWORD."""
import base64
import http.client
import json
import os
import sys
import time
import urllib.parse

KEYS = ("id", "from", "to", "day", "amount", "account")


def ask(url, method, path, body=None, cut=False):
    """Asks on a connection of its own: the status and the answer."""
    parts = urllib.parse.urlsplit(url)
    kind = http.client.HTTPSConnection if parts.scheme == "https" else http.client.HTTPConnection
    connection = kind(parts.hostname, parts.port, timeout=120)
    login = base64.b64encode(os.environ.get("TREASURY_LOGIN", "").encode()).decode()
    connection.request(method, path, body, {"Authorization": f"Basic {login}"})
    if cut:
        connection.close()
        raise ConnectionError("the connection was cut")
    reply = connection.getresponse()
    return reply.status, reply.read().decode()


def main(url, *words, cut=False):
    request = json.dumps({"do": "dispatch", **dict(zip(KEYS, words, strict=True))})
    for wait in (1, 2, 4, 8, 16, 32, 64):
        try:
            status, answer = ask(url, "POST", "/commands", request, cut)
        except (OSError, http.client.HTTPException) as error:
            status, answer = 503, f"{error}\n"
        if status not in (429, 502, 503, 504):
            print(answer, end="")
            return 0 if status == 200 else 1
        print(f"{answer.rstrip()}; again in {wait} s", file=sys.stderr)
        time.sleep(wait)
        cut = False
    return 1


if __name__ == "__main__":
    words = [word for word in sys.argv[1:] if word != "--cut"]
    sys.exit(main(*words, cut="--cut" in sys.argv) if len(words) == 7 else __doc__)
