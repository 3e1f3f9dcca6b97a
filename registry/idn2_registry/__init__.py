"""The jobs of a domain name registry, each decided by the program `idn2`.

    from idn2_registry import Zone

    with Zone.open("registry.toml") as zone:
        answer = zone.register("straße", holder="H1")
"""

from typing import TYPE_CHECKING, Any

from .answers import Answer, Refusal, RegisteredLabel, Status, Variant
from .faults import Unknown, Unusable
from .zone import Check, Zone

if TYPE_CHECKING:
    from .async_zone import AsyncZone

__all__ = ["Answer", "AsyncZone", "Check", "Refusal", "RegisteredLabel", "Status", "Unknown", "Unusable", "Variant",
           "Zone"]


def __getattr__(name: str) -> Any:
    """The async form is read when it is asked for, since a command shouldn't wait for asyncio."""
    if name != "AsyncZone":
        raise AttributeError(name)
    from .async_zone import AsyncZone

    return AsyncZone
