"""Draws what happened: hosts, controllers and media as lanes, events from above to below, requests as spans."""
from __future__ import annotations

from .formats import FORMS, form_of, png, svg
from .page import timeline
from .watching import watched

__all__ = ["FORMS", "form_of", "png", "svg", "timeline", "watched"]
