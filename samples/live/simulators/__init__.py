"""Simulated devices of several makes."""
