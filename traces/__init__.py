"""Traces for people: the trace file, its calls in words, and its picture. ./trace is the command over it."""
