"""Theories that go to HOL Light, and theorems that come from it."""
