"""`special` over children that say what they say, scene by scene."""

import scenes
from harness import table

FILES = ["check.txt", "info.txt", "init.txt", "run.txt", "kept.txt", "chunks.txt", "exports.txt", "audit_words.txt", "asides.txt",
         "messages.txt", "agains.txt"]


@table([(f"{file}: {heading}", rows) for file in FILES for heading, rows in scenes.sections(file)])
def scene(room, rows):
    scenes.play(room, rows)
