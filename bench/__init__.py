"""Measurements of built programs."""
