"""An OpenFeature provider: of the SDK's types where `openfeature-sdk` imports, else of types of the same shape."""
from __future__ import annotations

from collections.abc import Mapping
from dataclasses import dataclass, field
from typing import Any

from ._library import BOOL, CONTEXT, FLOAT, INTEGER, OBJECT, STRING, Refused
from ._recording import NotRecorded
from .client import Client

try:
    from openfeature.exception import ErrorCode
    from openfeature.flag_evaluation import FlagResolutionDetails
    from openfeature.provider import AbstractProvider, Metadata

    def _error_code(name: str) -> Any:
        return ErrorCode[name]

except ImportError:

    class AbstractProvider:  # type: ignore[no-redef]
        pass

    @dataclass
    class Metadata:  # type: ignore[no-redef]
        name: str

    @dataclass
    class FlagResolutionDetails:  # type: ignore[no-redef]
        value: Any
        error_code: Any = None
        error_message: str | None = None
        reason: str | None = None
        variant: str | None = None
        flag_metadata: Mapping[str, Any] = field(default_factory=dict)

    def _error_code(name: str) -> Any:
        return name


class FlagopsProvider(AbstractProvider):
    """Resolves by a client, which it closes at its shutdown."""

    def __init__(self, client: Client) -> None:
        self._client = client

    def get_metadata(self) -> Metadata:
        return Metadata(name="flagops")

    def get_provider_hooks(self) -> list:
        return []

    def initialize(self, evaluation_context: Any = None) -> None:
        """Waits for the first flags, up to five seconds."""
        self._client.wait(5.0)

    def shutdown(self) -> None:
        self._client.close()

    def resolve_boolean_details(self, flag_key: str, default_value: bool, evaluation_context: Any = None) -> FlagResolutionDetails:
        return self._details(flag_key, BOOL, default_value, evaluation_context)

    def resolve_string_details(self, flag_key: str, default_value: str, evaluation_context: Any = None) -> FlagResolutionDetails:
        return self._details(flag_key, STRING, default_value, evaluation_context)

    def resolve_integer_details(self, flag_key: str, default_value: int, evaluation_context: Any = None) -> FlagResolutionDetails:
        return self._details(flag_key, INTEGER, default_value, evaluation_context)

    def resolve_float_details(self, flag_key: str, default_value: float, evaluation_context: Any = None) -> FlagResolutionDetails:
        """A flag of floats, or of whole numbers, each of which comes as a float."""
        details = self._details(flag_key, FLOAT, default_value, evaluation_context)
        details.value = float(details.value)
        return details

    def resolve_object_details(self, flag_key: str, default_value: Any, evaluation_context: Any = None) -> FlagResolutionDetails:
        return self._details(flag_key, OBJECT, default_value, evaluation_context)

    def _details(self, key: str, kind: int, default: Any, context: Any) -> FlagResolutionDetails:
        try:
            value, variant, reason, code = self._client._found(key, default, _context_of(context), kind, None)
        except (Refused, NotRecorded, TypeError, ValueError, RuntimeError, RecursionError) as fault:
            number = fault.number if isinstance(fault, Refused) else 0
            bad_context = CONTEXT < number < CONTEXT + 10 or isinstance(fault, (TypeError, ValueError, RecursionError))
            code = _error_code("INVALID_CONTEXT" if bad_context else "GENERAL")
            return FlagResolutionDetails(default, code, str(fault), "ERROR")
        return FlagResolutionDetails(value, None if code is None else _error_code(code), None, reason, variant)


def _context_of(context: Any) -> Any:
    """The context as a mapping: that of the SDK has a targeting key beside its attributes."""
    if context is None or type(context) is dict or isinstance(context, (Mapping, bytes)):
        return context
    members = dict(context.attributes)
    if context.targeting_key is not None:
        members["targetingKey"] = context.targeting_key
    return members
