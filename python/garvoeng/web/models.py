"""Names of authenticator models, by aaguid. The aaguid is the authenticator's own claim: good for a list, but no proof of anything."""
from __future__ import annotations

import json
from pathlib import Path
from typing import Dict, Mapping, Optional
from uuid import UUID

MODELS: Dict[str, str] = json.loads(Path(__file__).with_name("models.json").read_text("utf-8"))
"""The names that a list shows, by the aaguid as text; a site can pass another table. An aaguid of zeros, which many authenticators send,
has no name."""


def model_of(aaguid: Optional[bytes], models: Mapping[str, str]) -> Optional[str]:
    """The name of a model, if the table has it."""
    return None if aaguid is None else models.get(str(UUID(bytes=aaguid)))
