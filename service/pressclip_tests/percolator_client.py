#!/usr/bin/python3
"""Calls Debian's client of Elasticsearch: reads calls from standard input, each a name and its arguments, and prints
what each gave, or how it was refused."""

from __future__ import annotations

import json
import sys
import warnings
from typing import Any

from elasticsearch import Elasticsearch, helpers
from elasticsearch.exceptions import TransportError


def called(client: Elasticsearch, name: str, arguments: dict[str, Any]) -> object:
    """What a call gives."""
    if name == "helpers.bulk":
        return helpers.bulk(client, arguments["actions"], raise_on_error=False)
    call: Any = client
    for part in name.split("."):
        call = getattr(call, part)
    try:
        return {"gave": call(**arguments)}
    except TransportError as error:
        return {"status": error.status_code, "refused": error.info}


def main(address: str, *token: str) -> None:
    """Makes all calls in turn, with a token where one is given."""
    warnings.simplefilter("ignore")
    client = Elasticsearch(address, headers={"Authorization": f"Bearer {token[0]}"} if token else None)
    print(json.dumps([called(client, *one) for one in json.load(sys.stdin)]))


if __name__ == "__main__":
    main(*sys.argv[1:])
