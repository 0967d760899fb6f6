"""Tests any external special remote of git-annex, line by line."""

VERSION = "0.1.0"
