"""Shows the journal of a run as a page that stands alone."""

VERSION = "0.1.0"
