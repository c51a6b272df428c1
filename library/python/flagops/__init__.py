"""Feature flags, resolved in this process by libflagops.

    client = flagops.Client(file="flags.json")                  # watched; or stream="127.0.0.1:7000", followed
    if client.resolve("checkout", False, {"targetingKey": "ann"}).value:
        ...

`FlagopsProvider(client)` is a provider for OpenFeature's SDK. `rollouts` plans over the note lines of what was resolved.
"""
from . import rollouts
from ._library import Refused
from ._recording import NotRecorded
from .client import Client, Resolution
from .provider import FlagopsProvider

__all__ = ["Client", "FlagopsProvider", "NotRecorded", "Refused", "Resolution", "rollouts"]
